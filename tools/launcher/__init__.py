"""The parts of the script `auc`: it finds or builds the proved program, runs it, and says what its status means."""
