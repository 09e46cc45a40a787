"""What ./psci does beside the program: which program runs, what its words ask for, how faults are told."""
