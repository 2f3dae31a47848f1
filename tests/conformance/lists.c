#include "lists.h"

uint64_t entry_of(entry_fields e)
{
    return e.level | e.pending << 2 | e.state << 3 | e.reserved5 << 5 | e.l2_map << 7 | e.mig_type << 10 | e.page << 12 | e.operation << 52 |
           e.reserved54 << 54 | e.status << 56 | e.reserved61 << 61;
}

void set_states(guest *g, const uint64_t *states, size_t count)
{
    for (size_t i = 0; i < count; i++)
        PAGE(g, i, .state = states[i]);
}

guest *guest_for(call scan, size_t pages) { return guest_in(scan == DSCAN ? LIVE : BLACKOUT, pages); }

uint64_t end_of(call scan) { return scan == DSCAN ? 0 : 3; }

void expect_listed(guest *g, size_t i, size_t p)
{
    expect_word(g, LIST, i, entry(p));
    EXPECT_PAGE(g, p, .state = 4, .stamp = get(g, TLB));
}

void scans(place at, guest *g, call scan, scan_run r)
{
    if (scan == DCHECK) {
        expect(g, PLACE, r.next);
        expect(g, COMPLETE, r.code == 3);
        expect(g, FAILED, r.code == 51);
    }
    uint64_t count = r.count ? r.count : get(g, COUNT) - r.first;
    answer a = answers(at, g, r.code, scan, (operands){.first = r.first, .count = count, .budget = r.budget});
    check_scan(at, a, r.next, r.written ? 0 : 511, r.written ? r.written - 1 : 0);
}

guest *asking(uint64_t phase, page p)
{
    guest *g = guest_in(phase, 8);
    set_page(g, 5, p);
    lists_of(g, 1);
    set_word(g, LIST, 0, entry(5));
    return g;
}

guest *ready_in(uint64_t phase, uint64_t state)
{
    return ASKING(phase, .state = state, .dirty = state == 24 || state == 29, .stamp = 1, .mark = 9);
}

guest *asked_by(uint64_t phase, uint64_t w)
{
    guest *g = ready_in(phase, 4);
    set_word(g, LIST, 0, w);
    return g;
}

/* Whether the entry, as it came back, is of a page with contents that was exported. */
static int is_data(uint64_t out)
{
    uint64_t operation = out >> 52 & 3, pending = out >> 2 & 1;
    return (operation == MIGRATE || operation == REMIGRATE) && !pending;
}

void takes(place at, guest *g, uint64_t out, uint64_t buffer_word)
{
    uint64_t status = out >> 56 & 31;
    expect_word(g, LIST, 0, out);
    expect_word(g, BUFFER, 0, buffer_word);
    answer a = answers(at, g, 0, EXPORT, (operands){.info = info(0, 0), .budget = 1});
    check_export(at, a, info(1, 0), status > 1, 2 + (uint64_t)is_data(out));
}

void moves(place at, guest *g, uint64_t to, entry_fields out)
{
    const uint64_t state_and_epoch = 0xffff000000ff;
    uint64_t before = word(g, TABLE, 2 * 5), mark = word(g, TABLE, 2 * 5 + 1);
    expect_word(g, TABLE, 2 * 5, (before & ~state_and_epoch) | to | get(g, MIG) << 32);
    takes(at, g, entry_of(out), is_data(entry_of(out)) ? mark : 0);
}

void list_of_skips(guest *g, size_t words)
{
    lists_of(g, words);
    for (size_t i = 0; i < words; i++)
        set_word(g, LIST, i, entry_op(i % 8, 0));
}

void expect_skipped(guest *g, size_t from, size_t to)
{
    for (size_t i = from; i < to; i++) {
        expect_word(g, LIST, i, ENTRY(.page = i % 8, .status = 1));
        expect_word(g, BUFFER, i, 0);
    }
}

guest *aborted_with(size_t pages)
{
    guest *g = guest_in(IDLE, pages);
    lists_of(g, pages);
    for (size_t i = 0; i < pages; i++) {
        PAGE(g, i, .state = 24, .cached = 1, .stamp = 1, .epoch = 3, .mark = i);
        set_word(g, LIST, i, ENTRY(.page = i, .operation = 1, .status = 31));
    }
    return g;
}

void expect_restored(guest *g, size_t from, size_t to)
{
    for (size_t i = from; i < to; i++) {
        EXPECT_PAGE(g, i, .state = 4, .cached = 1, .mark = i);
        expect_word(g, LIST, i, ENTRY(.page = i, .operation = 1));
    }
}

void returns(place at, guest *g, uint64_t out)
{
    expect_word(g, LIST, 0, out);
    answer a = answers(at, g, 0, RESTORE, (operands){.info = info(0, 0), .budget = 1});
    check_equal(at, "info word", a.info, info(1, 0));
}
