"""What `.ci/rows` tests a program with. Each module reads data of one sort and says what the program has to answer."""
