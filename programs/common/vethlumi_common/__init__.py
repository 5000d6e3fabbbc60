"""What the programs of several machines have in common. Each thing is here once, and none of it knows a program."""
