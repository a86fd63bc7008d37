/* Other names for the plain implementation, so that a copy of it with a planted fault can be linked beside it:
 * read first, by `-include`. */
#define plain_check_block other_check_block
#define plain_check_recording other_check_recording
#define plain_find_record other_find_record
#define plain_find_item other_find_item
#define plain_next_record other_next_record
#define plain_merge_step other_merge_step
#define plain_begin_merge other_begin_merge
#define plain_next_merged other_next_merged
#define plain_read_item other_read_item
#define plain_write_item other_write_item
#define plain_add_record other_add_record
#define plain_least_length other_least_length
#define plain_read_sheet other_read_sheet
#define plain_find_mark other_find_mark
#define plain_write_sheet other_write_sheet
#define plain_add_mark other_add_mark
#define plain_remove_mark other_remove_mark
#define plain_empty_sheet other_empty_sheet
