# takes a packet twice where it looks for a refusal, as a macro would that uses its argument twice
s/^    if (nooseless_is_refusal(told)) return told;/    if (letter == NOOSELESS_CONTROLLER_TAKE) told = nooseless_controller_step(state, sizeof state, letter, heard, length, reply, sizeof reply, order);\n&/
