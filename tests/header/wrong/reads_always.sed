# reads and shows an answer where no row waits for one
s/^    if (waiting) act(NOOSELESS_READ_ANSWER, 0);/    act(NOOSELESS_READ_ANSWER, 0);/
