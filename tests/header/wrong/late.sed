# keeps the record after the next reply has left
/^    if (told & NOOSELESS_KEEP) {$/,/^    }$/d
/^    if (told & NOOSELESS_SENT) @_send(reply);$/a\
    static int owed;\
    if (told & NOOSELESS_KEEP) owed = 1;\
    if (owed && (told & NOOSELESS_SENT)) {\
        uint8_t record[NOOSELESS_RECORD_LEN];\
        nooseless_@_record(state, sizeof state, record, sizeof record);\
        @_keep(record);\
        owed = 0;\
    }
