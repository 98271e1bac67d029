"""The modules of the program `office`, with which clerks manage a club. deploy/office runs these modules."""
