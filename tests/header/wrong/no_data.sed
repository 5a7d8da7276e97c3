# repeats Q alone
s/ == NOOSELESS_OTHER_MODE) act(NOOSELESS_SEND_DATA, 0);/ == NOOSELESS_NO_ACTION) return;/
