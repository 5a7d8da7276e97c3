# reads the answer before the reply of the packet that brought it has left
s/^    if (told & NOOSELESS_SENT) console_send(reply);$/    if (letter == NOOSELESS_CONSOLE_TAKE \&\& waiting) act(NOOSELESS_READ_ANSWER, 0);\n&/
