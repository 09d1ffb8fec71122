"""What the sources say, for tools/believed and tools/fixed: definitions and laws (antt.py), functions and types of the code (rattle.py), and what a name means (names.py).

They read as much of the two languages as the project uses. What they cannot read, or a name that means nothing, is an error (`Unreadable`) and is never passed over."""
