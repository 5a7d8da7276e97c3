# keeps the record after every step, as if it always changed
s/^    if (told & NOOSELESS_KEEP) {$/    if (letter) {/
