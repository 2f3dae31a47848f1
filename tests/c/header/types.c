/* Compiled as C11 and as C++17: each function has the type that it should have, const where no call of the kind changes a byte. */
#include "chirpsteeple.h"

#define CHANGED uint8_t *, size_t
#define KEPT const uint8_t *, size_t

uint64_t (*const makes)(CHANGED, CHANGED, uint64_t) = chirp_new;
uint64_t (*const writes)(KEPT, CHANGED, uint64_t, uint64_t) = chirp_write;
uint64_t (*const on_a_page[])(KEPT, CHANGED, uint64_t) = {chirp_add, chirp_accept, chirp_block, chirp_unblock, chirp_remove};
uint64_t (*const on_all_pages[])(CHANGED, CHANGED) = {chirp_track, chirp_start, chirp_pause};
uint64_t (*const on_the_session[])(CHANGED, KEPT) = {chirp_abort, chirp_new_epoch, chirp_reset};
chirp_token_answer (*const grants)(CHANGED, KEPT) = chirp_start_token;
chirp_scan_answer (*const scans)(KEPT, CHANGED, uint64_t, uint64_t, CHANGED, uint64_t) = chirp_dscan;
chirp_scan_answer (*const checks)(CHANGED, CHANGED, CHANGED, uint64_t) = chirp_dcheck;
chirp_export_answer (*const exports)(CHANGED, CHANGED, CHANGED, CHANGED, uint64_t, uint64_t, uint64_t, uint64_t) = chirp_export;
chirp_list_answer (*const restores)(KEPT, CHANGED, CHANGED, uint64_t, uint64_t) = chirp_restore;
