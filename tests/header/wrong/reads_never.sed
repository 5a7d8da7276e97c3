# never reads an answer
s/^    if (waiting) act(NOOSELESS_READ_ANSWER, 0);/    return;/
