# starts a block below reserved, so that none of its numbers are given up
s/uint8_t refusal = nooseless_@_downed(state, sizeof state, record, @_load(record));/uint8_t end;\n    uint16_t block = 0;\n    uint32_t number = 0;\n    uint8_t refusal = nooseless_read_record(record, @_load(record), \&end, \&number, \&block);\n    if (!refusal) nooseless_@_fresh(state, sizeof state, number - block);/
s/return refusal ? refusal : act([A-Z_]*, 0);/return refusal;/
