"""The commands of the desk: each is a function, below what `office COMMAND --help` prints of it."""
import command
from commands import beside, changes, files, papers, serving

MODULES = [beside, changes, files, papers, serving]  # each has put its commands in the table
COMMANDS = dict(sorted(command.COMMANDS.items()))
