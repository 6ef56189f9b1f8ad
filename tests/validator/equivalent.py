"""Wrong edits of dist/ that mean the same for all inputs, though the compiler makes other code of them: (function, edit) and the reason."""

EQUIVALENT = {
    ('unit_hours_book__total_at', 'if (p.last < second) {  ->  if (p.last <= second) {'):
        'where both are equal the one branch adds their difference, which is 0, to what the other gives',
    ('alone_gauges__merge__kind_of', 'if (((a < b) ? (b - a) : (a - b)) <= tolerance) {  ->  if (((a <= b) ? (b - a) : (a - b)) <= tolerance) {'):
        'where both are equal b - a and a - b are both 0',
    ('base_codec__turns__copy_with_top_bit', '+ (uint8_t)((uint32_t)128u * (uint8_t)bit));  ->  - (uint8_t)((uint32_t)128u * (uint8_t)bit));'):
        'what is added is 0 or 128, the sum becomes a byte, and 128 more or less is the same modulo 256',
    ('call_usage__rest', 'if (places < used) {  ->  if (places <= used) {'):
        'where both are equal their difference, too, is 0',
    ('log_scan__commits__skipped', 'if (first < position) {  ->  if (first <= position) {'):
        'the same',
    ('call_rights__zeros__zero_entry', '| load_8(log.ptr + (size_t)(place + 24u))));  ->  | load_4(log.ptr + (size_t)(place + 24u))));'):
        'the eight bytes there are the first of the next four words, too, so that they are asked all the same',
    ('log_replay__restore__restore_word', 'log_replay__places__restore_block(log, area, groups, start, slot, (uint64_t)table.ptr[(size_t)t10] - 1u, base + t10);  ->  '
     't9 = t9 & (t9 - 1u);'):
        'the two statements in the other order: which home is restored was found before, and clearing its bit touches nothing of it',
    ('base_state__writers__writer', 't3 = 128u + (24u * w);  ->  t4 = (uint64_t)s.ptr[(size_t)(104u + w)];'):
        'the two statements in the other order: neither reads what the other writes',
}
