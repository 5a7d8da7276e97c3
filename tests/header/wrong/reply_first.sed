# the reply leaves before the report is shown
/^    if (told & NOOSELESS_SENT) @_send(reply);$/d
s/^    if (nooseless_report(told) [!=]= NOOSELESS_[A-Z]*) .*/    if (told \& NOOSELESS_SENT) @_send(reply);\n&/
