/* The calls that the model of the library (map.c) lacks: .ci/lists.py --write makes this file of the headers. */
LACKS(tags_library_get_many, struct tags_hand *hand, uint32_t *tags, size_t count, struct tags_told *told)
LACKS(tags_library_get_write, struct tags_hand *hand, uint64_t value, struct tags_told *told)
LACKS(tags_library_read_clear, struct tags_hand *hand, uint32_t tag, uint64_t *value, struct tags_told *told)
LACKS(tags_library_show, struct tags_hand *hand, uint32_t kind, struct tags_sizes *sizes)
