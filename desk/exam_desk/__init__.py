"""What the commands of the desk do, apart from words and lines: functions that return values or raise `Trouble`."""
