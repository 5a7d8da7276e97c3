# takes a record of version 1 as none, and starts from 0
s/uint8_t refusal = nooseless_@_downed(state, sizeof state, record, @_load(record));/size_t length = @_load(record);\n    uint8_t refusal = length == NOOSELESS_RECORD_LEN ? nooseless_@_downed(state, sizeof state, record, length) : nooseless_@_fresh(state, sizeof state, 0);/
s/return refusal ? refusal : act(\([A-Z_]*\), 0);/if (!refusal) act(\1, 0);\n    return refusal;/
