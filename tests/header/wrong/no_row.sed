# comes back without the row that waits for its answer
s/^    waiting = console_unanswered(order);/    waiting = console_unanswered(order) \&\& 0;/
