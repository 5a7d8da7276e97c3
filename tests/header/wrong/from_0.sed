# starts again from 0 after each power cut
s/uint8_t refusal = nooseless_@_downed(state, sizeof state, record, @_load(record));/@_load(record); uint8_t refusal = nooseless_@_fresh(state, sizeof state, 0);/
s/return refusal ? refusal : act([A-Z_]*, 0);/return refusal;/
