"""The officer's desk in a browser: pages that read, and one way for every change: propose, see, do."""
