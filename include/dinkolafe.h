/*
 * Dinkolafe: which records may share a frame header.
 *
 * Every function is proved to keep the promise that docs/PROMISES.md names for it. `rt lib` in crates/exports writes the
 * archive, out/libexports.a there, for x86-64; nothing else is linked but the C library (memset, memcpy).
 *
 * ---- Answers
 *
 * A function returns 0 and writes the answer's value to *value; or it refuses, returns the refusal's number and
 * writes the refusal's place to *value. What a value means is said at each function.
 *
 *   no.  refused exactly when                                          place
 *    1   the sheet has over 65,535 bytes                                0
 *    2   the workspace is too short                                     0
 *    3   a field passes its parent's end, has a tag that is not         that field
 *        allowed there, or a wrong length or byte
 *    3   a needed field is missing                                      its parent's end
 *    4   a name in the sheet has a wrong length or byte                 its field
 *    5   a counted limit or the depth is passed                         the first field beyond
 *    6   a name is not found                                            its first byte, in sheet or query
 *    7   there is no such path                                          0
 *    8   a second rule for a path                                       the second entity's field
 *    9   an empty ANDOR, or an AND under two terms                      0
 *   10   an ANDOR over 12 factors                                       0
 *   11   over 128 parts, or a part over 12 names                        0
 *   12   the result is longer than its buffer                           0
 *   13   the walk through named types meets a path again                0
 *   14   from_path of a kind other than Entity or Type                  0
 *   15   a malformed query                                              first bad or surplus field, or the query's end
 *   15   a malformed row or operand                                     first bad, cut, missing or surplus row
 *   16   not a supertype                                                0
 *   17   the number is not under the count, or the set not in the list  0
 *
 * The place of a field is the offset of its tag in the sheet or query; of a row, its number in its operand. At each
 * function the refusals are named in the order in which they are tried; "3 to 5" are the sheet's faults, by position.
 *
 * ---- What is lent
 *
 * A slice is a pointer and a length, in elements. Nothing about its content is asked: every content has an answer.
 * As everywhere in C, the caller sees to it that the memory is there, aligned, and that what is written (out,
 * workspace, value, start, stop) overlaps nothing else that is lent to the same call. No pointer is null, even of a
 * slice of length 0. Nothing is kept after the call, no memory is allocated, and there is no state: calls on
 * different memory may run at once. The stack of a call stayed below 32 KB in all tests; that is measured, not proved.
 *
 * out        the result buffer. An answer writes its rows at the front and nothing after them; a refusal writes nothing.
 * workspace  at least DINKOLAFE_WORKSPACE numbers, holding anything. Refusals 1 and 2 leave it as it was; after any other
 *            answer all of it is zero.
 *
 * ---- Sheets, queries, rows
 *
 * A sheet is EXPRESS schemas as fields; a field is a tag byte, two length bytes (high byte first) and the value.
 * A query is fields too: a path is 1 to 4 of them and a scope 0 to 3, each with the tag 0x60 plus the kind of its step
 * (Entity 0x60, Schema 0x67, Type 0x69) and a name as its value. docs/01-scope.md has every tag and limit.
 * A declaration's number counts from 0: by schema, types then entities, in sheet order.
 *
 * A part, one combination, is a row of DINKOLAFE_ROW numbers: how many names it has, the names' numbers (0 to 255)
 * strictly rising, zeros. A list is whole rows, at most DINKOLAFE_PARTS; a list that is answered has fewer names first,
 * then lower numbers first, without repeats, and a row's place in it is the combination's number.
 */
#ifndef DINKOLAFE_H
#define DINKOLAFE_H

#include <stddef.h>
#include <stdint.h>

#ifdef __cplusplus
extern "C" {
#endif

#define DINKOLAFE_ROW 13
#define DINKOLAFE_PARTS 128
#define DINKOLAFE_WORKSPACE 32768

/* ---- Sheets. No workspace is borrowed. */

/* Is the sheet accepted? Value: 0. Refuses with its first fault: 1, 3 to 5. */
uint8_t dinkolafe_verdict(const uint8_t *sheet, size_t sheet_len, uint64_t *value);

/* What does a name mean in a scope? The query is a scope and then one field 0x10, the name.
   Value: the declaration's number. Refuses: 1, 3 to 5, 15, 6. */
uint8_t dinkolafe_resolve(const uint8_t *sheet, size_t sheet_len, const uint8_t *query, size_t query_len, uint64_t *value);

/* Which declaration is the first with the query's path? Value: its number. Refuses: 1, 3 to 5, 15, 7. */
uint8_t dinkolafe_get(const uint8_t *sheet, size_t sheet_len, const uint8_t *query, size_t query_len, uint64_t *value);

/* Is a declaration with this number there? Value: 0. Refuses: 1, 3 to 5, 15 (place 0). */
uint8_t dinkolafe_as_path(const uint8_t *sheet, size_t sheet_len, uint16_t index, uint64_t *value);

/* Where does the name of the declaration's schema stand? Its bytes are sheet[*start] up to sheet[*stop - 1].
   Refuses as dinkolafe_as_path does; then *start is the refusal's place and *stop is 0. */
uint8_t dinkolafe_schema_name(const uint8_t *sheet, size_t sheet_len, uint16_t index, uint64_t *start, uint64_t *stop);

/* Where does the declaration's own name stand? As dinkolafe_schema_name. */
uint8_t dinkolafe_item_name(const uint8_t *sheet, size_t sheet_len, uint16_t index, uint64_t *start, uint64_t *stop);

/* How does the left query's scope stand to the right one's? A scope is greater than every longer one that starts with it.
   Value: 0 less, 1 equal, 2 greater, 3 no order. Refuses: 15, of the left query first. */
uint8_t dinkolafe_order(const uint8_t *left, size_t left_len, const uint8_t *right, size_t right_len, uint64_t *value);

/* ---- Supertypes and types. Each borrows a workspace; the query is a path. */

/* Is the path a supertype? Value: 0 no, 1 yes. Refuses: 1, 2, 3 to 5, 15, 6 or 8. */
uint8_t dinkolafe_is_supertype(const uint8_t *sheet, size_t sheet_len, const uint8_t *query, size_t query_len,
                               uint16_t *workspace, size_t workspace_len, uint64_t *value);

/* Which combinations does the supertype allow? Value: how many rows out holds.
   Refuses: 1, 2, 3 to 5, 15, 6 or 8, 16, 9 to 11, 12. A buffer of DINKOLAFE_ROW * DINKOLAFE_PARTS is always long enough. */
uint8_t dinkolafe_list(const uint8_t *sheet, size_t sheet_len, const uint8_t *query, size_t query_len,
                       uint16_t *workspace, size_t workspace_len, uint16_t *out, size_t out_len, uint64_t *value);

/* Which number has this combination, a row, in the supertype's list? Value: the number.
   Refuses: 1, 2, 3 to 5, 15 (the query, then the row), 6 or 8, 16, 9 to 11, 17. */
uint8_t dinkolafe_number_of(const uint8_t *sheet, size_t sheet_len, const uint8_t *query, size_t query_len,
                            const uint16_t *row, size_t row_len, uint16_t *workspace, size_t workspace_len, uint64_t *value);

/* Which combination has this number in the supertype's list? Value: 1, and out holds its row.
   Refuses: 1, 2, 3 to 5, 15, 6 or 8, 16, 9 to 11, 17, 12. */
uint8_t dinkolafe_row_at(const uint8_t *sheet, size_t sheet_len, const uint8_t *query, size_t query_len, size_t number,
                         uint16_t *workspace, size_t workspace_len, uint16_t *out, size_t out_len, uint64_t *value);

/* Which is the supertype with this number, from 0, in order of first entry? Value: its declaration's number.
   Refuses: 1, 2, 3 to 5, 6 or 8, 17. */
uint8_t dinkolafe_supertype_at(const uint8_t *sheet, size_t sheet_len, size_t number, uint16_t *workspace, size_t workspace_len,
                               uint64_t *value);

/* What does the path mean? Value: of an entity, 0, or 1 where it is a supertype; of a type, 4, and 2 more where it is
   simple, and 1 more where it is an enumeration. Refuses: 1, 2, 3 to 5, 15, 6 or 8, 14, then 7, 6 or 13 as the walk meets them. */
uint8_t dinkolafe_from_path(const uint8_t *sheet, size_t sheet_len, const uint8_t *query, size_t query_len,
                            uint16_t *workspace, size_t workspace_len, uint64_t *value);

/* ---- Parts. A part that is handed in is exactly one row. */

/* The part with these names. Neighbouring repeats are dropped; an index that falls or is over 255 is 15 at its place.
   Value: 1, and out holds the row. Refuses: 15, 11, 12. */
uint8_t dinkolafe_new(const uint16_t *indices, size_t indices_len, uint16_t *out, size_t out_len, uint64_t *value);

/* The part with this one name. Value: 1, and out holds the row. Refuses: 15 (over 255, place 0), 12. */
uint8_t dinkolafe_single(uint16_t index, uint16_t *out, size_t out_len, uint64_t *value);

/* How does the left part stand to the right one? Value: 0 before it, 1 equal, 2 after it. Refuses: 15, left first. */
uint8_t dinkolafe_compare(const uint16_t *left, size_t left_len, const uint16_t *right, size_t right_len, uint64_t *value);

/* The part with the names of both. Value: 1, and out holds the row. Refuses: 15, left first, 11, 12. */
uint8_t dinkolafe_join(const uint16_t *left, size_t left_len, const uint16_t *right, size_t right_len,
                       uint16_t *out, size_t out_len, uint64_t *value);

/* ---- Lists. A list that is handed in is whole rows in any order. Value: how many rows out holds. */

/* Left or right: add two lists, add_part a list and a part, part_add a part and a list. Refuses: 15, left first, 11, 12. */
uint8_t dinkolafe_add(const uint16_t *left, size_t left_len, const uint16_t *right, size_t right_len,
                      uint16_t *out, size_t out_len, uint64_t *value);
uint8_t dinkolafe_add_part(const uint16_t *left, size_t left_len, const uint16_t *right, size_t right_len,
                           uint16_t *out, size_t out_len, uint64_t *value);
uint8_t dinkolafe_part_add(const uint16_t *left, size_t left_len, const uint16_t *right, size_t right_len,
                           uint16_t *out, size_t out_len, uint64_t *value);

/* Each part of the left joined with each of the right: operands as above. Refuses: 15, left first, 11, 12. */
uint8_t dinkolafe_bitand(const uint16_t *left, size_t left_len, const uint16_t *right, size_t right_len,
                         uint16_t *out, size_t out_len, uint64_t *value);
uint8_t dinkolafe_bitand_part(const uint16_t *left, size_t left_len, const uint16_t *right, size_t right_len,
                              uint16_t *out, size_t out_len, uint64_t *value);
uint8_t dinkolafe_part_bitand(const uint16_t *left, size_t left_len, const uint16_t *right, size_t right_len,
                              uint16_t *out, size_t out_len, uint64_t *value);

/* The left list without the right one's parts, in the left one's order, repeats kept: sub two lists, sub_part a list and a
   part. Refuses: 15, left first, 12. */
uint8_t dinkolafe_sub(const uint16_t *left, size_t left_len, const uint16_t *right, size_t right_len,
                      uint16_t *out, size_t out_len, uint64_t *value);
uint8_t dinkolafe_sub_part(const uint16_t *left, size_t left_len, const uint16_t *right, size_t right_len,
                           uint16_t *out, size_t out_len, uint64_t *value);

/* The parts of the left list that contain some part of the right, in the left one's order, repeats kept: div two lists,
   div_part a list and a part. Refuses: 15, left first, 12. */
uint8_t dinkolafe_div(const uint16_t *left, size_t left_len, const uint16_t *right, size_t right_len,
                      uint16_t *out, size_t out_len, uint64_t *value);
uint8_t dinkolafe_div_part(const uint16_t *left, size_t left_len, const uint16_t *right, size_t right_len,
                           uint16_t *out, size_t out_len, uint64_t *value);

/* ---- Several lists: their rows one after another, and counts[i] the number of rows of the i-th. A 15 has the row's
   number counted through all of them. Value: how many rows out holds. */

/* A part of one of the lists. Refuses: 15, 11, 12. */
uint8_t dinkolafe_oneof(const uint16_t *counts, size_t counts_len, const uint16_t *rows, size_t rows_len,
                        uint16_t *out, size_t out_len, uint64_t *value);

/* The join of a part from every list. Refuses: 15, 9, 11, 12. */
uint8_t dinkolafe_and(const uint16_t *counts, size_t counts_len, const uint16_t *rows, size_t rows_len,
                      uint16_t *out, size_t out_len, uint64_t *value);

/* The join of one part each from one or more of the lists. Refuses: 15, 9, 10, 11, 12. */
uint8_t dinkolafe_andor(const uint16_t *counts, size_t counts_len, const uint16_t *rows, size_t rows_len,
                        uint16_t *out, size_t out_len, uint64_t *value);

#ifdef __cplusplus
}
#endif

#endif
