"""What is wrong in a source, and what is doubtful in one that has no fault."""
