# comes back with the ack that it had, as if memory outlived the cut
s/^static int waiting;.*/&\nstatic uint8_t kept_ack;/
s/^    if (nooseless_is_refusal(told)) return told;/    if (letter == NOOSELESS_CONSOLE_BACK) state[20] = kept_ack;\n    else kept_ack = state[20];\n&/
