"""The judge: cases, the second reading of the rules, the programs that answer, the comparison."""
