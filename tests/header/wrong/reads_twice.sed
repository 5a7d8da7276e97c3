# reads the answer twice where it looks for a refusal, and shows the second reading
s/^    if (nooseless_is_refusal(told)) return told;/    if (letter == NOOSELESS_READ_ANSWER) told = nooseless_console_step(state, sizeof state, letter, order, heard, length, reply, sizeof reply);\n&/
