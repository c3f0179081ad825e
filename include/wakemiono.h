/* Wakemiono: reads, asks and canonically rewrites the metadata of WebAssembly modules. x86-64 System V.
 *
 * Every call takes any bytes, ends, and asks no prior check. A byte slice is a pointer and a length; a length of 0 may
 * come with any non-null pointer. Every answer is one struct by value, or, to a yes or no, the number 1 or 0, so that no
 * call needs a buffer for it. A call reads what is lent to it and nothing else, and stores nothing but into an output, the
 * state of a stream, or a table and its store; slices may not overlap these, nor any two of them each other.
 *
 *   kind            code             offset                    length
 *   WM_NONE      0  0                0                         0
 *   WM_FOUND     1  0 (section: id)  offset in what was lent   length in bytes (walk: count of sections; open: the hold)
 *   WM_REFUSED   2  refusal number   where the fault lies      0
 *   WM_UNLIKELY  3  0                0                         0      (hint questions only)
 *   WM_LIKELY    4  0                0                         0      (hint questions only)
 *
 * The numbers of kinds and refusals are fixed: a host may store them. New calls are added beside these.
 *
 * Refusals, and what their offset gives:
 *    1  preamble missing or different                                       0
 *    2  a number, name or sized part runs past its enclosing part           first byte of the number, or of the length
 *    3  fifth byte of a number above 0x0F                                   first byte of the number
 *    4  text is not UTF-8                                                   first byte of the text (from lists: where the name starts)
 *    5  section id above 13                                                 id byte
 *    6  section repeated or out of order                                    id byte
 *    7  second section `name`, `metadata.code.branch_hint`, `branchHints`   its id byte
 *    8  data after `name`; hints after code                                 id byte of the later section
 *    9  subsection id not above the one before                              id byte
 *   10  bytes left over in a subsection, in metadata or in hints, or
 *       behind the list of imports or of bodies                             first of them
 *   11  index or offset not above the one before                            that number (from lists: its position)
 *   12  hint of size other than 1, or data above 1; older: kind above 1     the size number; older: the kind
 *   13  output shorter than needed                                          the needed length (markers, entries: their number)
 *   14  lists disagree: unequal counts, or lengths that do not add up       0
 *   15  subsection, or older hints, would exceed 4,294,967,295 bytes        0
 *       payload for markers, or for the quick question, exceeds them        0
 *   17  in older hints the byte behind a function is not zero               that byte
 *   18  a part or a finish of a stream after its finish                     0
 *   19  no body for a hinted function                                       the function index
 *   20  locals, or an instruction before a hint, not readable by 1.0        the hint's offset number
 *   21  hint not on br_if or if                                             the hint's offset number
 *   22  no markers: lists of unequal length                                 the shorter's length
 *       else an end outside the payload                                     the length of the lists
 *       else a list that does not rise, or an offset not below the end      the first such position in the lists, from 0
 *   23  no such customer: above 15                                          0
 *   24  hold not open, or above 7                                           0
 *   25  open with all eight holds of the customer in use                    0
 *   26  payload not stored yet, and no run of free blocks long enough       0
 *   27  wrong check of a needed block, or stored payload not accepted       0
 *   28  a part that takes a stream above 18,446,744,073,709,551,615 bytes   0
 *   29  import kind above 3, or limits flag above 1                         that byte
 *   30  store of another length than at the start, or not 1 to 128 blocks   0
 *
 * 16 is given by no call: the program that lists has it for its own input.
 */
#ifndef WAKEMIONO_H
#define WAKEMIONO_H
#include <stddef.h>
#include <stdint.h>

#ifdef __cplusplus
extern "C" {
#endif

enum { WM_NONE = 0, WM_FOUND = 1, WM_REFUSED = 2, WM_UNLIKELY = 3, WM_LIKELY = 4 };

typedef struct { uint32_t kind; uint32_t code; uint64_t offset; uint64_t length; } wm_answer;

/* The walk over a whole module. A module that is damaged anywhere is refused, whatever is asked. */

/* How many sections there are: FOUND with offset 0 and length = count of sections. */
wm_answer wm_walk(const uint8_t *module, size_t module_len);
/* The section at a position, from 0: FOUND with code = id, offset of the id byte, contents length; NONE past the last. */
wm_answer wm_section(const uint8_t *module, size_t module_len, uint64_t position);
/* Where the payload lies of the first custom section of that name, compared byte by byte; NONE without one. */
wm_answer wm_custom(const uint8_t *module, size_t module_len, const uint8_t *name, size_t name_len);

/* Questions to a name payload, in the first edition of names; the wider one stands further on. The payload is judged whole
 * first; FOUND gives the very bytes of the payload, NONE exactly where there is no name. An empty name is FOUND with
 * length 0. */

/* Is it accepted? FOUND with offset 0 and the payload's length. */
wm_answer wm_names_judge(const uint8_t *payload, size_t payload_len);
/* The module's name. */
wm_answer wm_module_name(const uint8_t *payload, size_t payload_len);
/* A function's name. */
wm_answer wm_function_name(const uint8_t *payload, size_t payload_len, uint32_t function);
/* A type's name. */
wm_answer wm_type_name(const uint8_t *payload, size_t payload_len, uint32_t type);
/* A tag's name. */
wm_answer wm_tag_name(const uint8_t *payload, size_t payload_len, uint32_t tag);
/* The name of a local in a function. */
wm_answer wm_local_name(const uint8_t *payload, size_t payload_len, uint32_t function, uint32_t local);
/* The name of a field in a type. */
wm_answer wm_field_name(const uint8_t *payload, size_t payload_len, uint32_t type, uint32_t field);
/* The contents of the kept subsection with an id; NONE for the ids 0, 1, 2, 4, 10 and 11, which have questions of their own. */
wm_answer wm_kept(const uint8_t *payload, size_t payload_len, uint8_t id);

/* The same questions through a module: judged after the walk, offsets from the module's start, NONE without the section. */

/* The module's name. */
wm_answer wm_module_name_in(const uint8_t *module, size_t module_len);
/* A function's name. */
wm_answer wm_function_name_in(const uint8_t *module, size_t module_len, uint32_t function);
/* A type's name. */
wm_answer wm_type_name_in(const uint8_t *module, size_t module_len, uint32_t type);
/* A tag's name. */
wm_answer wm_tag_name_in(const uint8_t *module, size_t module_len, uint32_t tag);
/* The name of a local in a function. */
wm_answer wm_local_name_in(const uint8_t *module, size_t module_len, uint32_t function, uint32_t local);
/* The name of a field in a type. */
wm_answer wm_field_name_in(const uint8_t *module, size_t module_len, uint32_t type, uint32_t field);
/* The contents of the kept subsection with an id. */
wm_answer wm_kept_in(const uint8_t *module, size_t module_len, uint8_t id);

/* Code metadata. wm_metadata_*: any format, data of any size. wm_hint*: format branch_hint, read fully (refusal 12). */

/* Is a payload of any format accepted? FOUND with offset 0 and the payload's length. */
wm_answer wm_metadata_judge(const uint8_t *payload, size_t payload_len);
/* Is a payload of branch hints accepted? FOUND with offset 0 and the payload's length. */
wm_answer wm_hints_judge(const uint8_t *payload, size_t payload_len);
/* The data that belongs to an offset of a function. */
wm_answer wm_metadata(const uint8_t *payload, size_t payload_len, uint32_t function, uint32_t offset);
/* The hint for the branch at an offset of a function: NONE, UNLIKELY, LIKELY or REFUSED. */
wm_answer wm_hint(const uint8_t *payload, size_t payload_len, uint32_t function, uint32_t offset);
/* The data through a module, from the first section metadata.code.T, where format is T; where T is branch_hint its rules hold too. */
wm_answer wm_metadata_in(const uint8_t *module, size_t module_len, const uint8_t *format, size_t format_len, uint32_t function, uint32_t offset);
/* The hint through a module. */
wm_answer wm_hint_in(const uint8_t *module, size_t module_len, uint32_t function, uint32_t offset);

/* Canonical rewritings. FOUND: offset 0, length = bytes written, at the front of out; the rest of out is unchanged.
 * REFUSED changes nothing; refusal 13 gives the needed length as its offset. An output as long as the payload is always
 * enough. Two accepted payloads have equal rewritings exactly when every question gets the same answer from both. */

/* The canonical form of a name payload. */
wm_answer wm_names_canonical(const uint8_t *payload, size_t payload_len, uint8_t *out, size_t out_len);
/* The canonical form of a metadata payload of any format. */
wm_answer wm_metadata_canonical(const uint8_t *payload, size_t payload_len, uint8_t *out, size_t out_len);
/* The canonical form of a payload of branch hints. */
wm_answer wm_hints_canonical(const uint8_t *payload, size_t payload_len, uint8_t *out, size_t out_len);

/* Is a payload canonical already? 1 exactly where it is accepted and equals its canonical rewriting, else 0: a payload
 * that is refused gets 0 as well. It takes one pass and no output. */

/* Is a name payload canonical? */
uint32_t wm_names_is_canonical(const uint8_t *payload, size_t payload_len);
/* Is a metadata payload of any format canonical? */
uint32_t wm_metadata_is_canonical(const uint8_t *payload, size_t payload_len);
/* Is a payload of branch hints canonical? */
uint32_t wm_hints_is_canonical(const uint8_t *payload, size_t payload_len);

/* Function names written from three lists: indices, name lengths in bytes, and the text of all names joined. The payload
 * is canonical; answers and output as for the rewritings. Refusals in this order: 14, all of 11, all of 4, 15, 13. */
wm_answer wm_function_names_write(const uint32_t *indices, size_t indices_len, const uint32_t *lengths, size_t lengths_len,
                                  const uint8_t *text, size_t text_len, uint8_t *out, size_t out_len);

/* The wider edition of names, which follows the extended name section proposal. It knows twelve ids: the six of the first
 * edition, and 3 labels by function, 5 tables, 6 memories, 7 globals, 8 element segments and 9 data segments, which the
 * first edition keeps as they are. The caller chooses an edition by the call. Every call on names above has its like here,
 * with the same kinds of answer and the same refusals, and there are six questions more.
 *
 * A payload that the wider edition accepts is accepted by the first too, which finds the same names in what it knows. It
 * is not so the other way round, and where both refuse, number and offset may differ: 07 01 FF 07 00 is refusal 9 at 3 in
 * the first edition, and 2 at 2 in the wider. Canonical forms are comparable within one edition only: the empty map
 * 07 01 00 is dropped by the wider edition and kept by the first. */

/* Is it accepted? FOUND with offset 0 and the payload's length. */
wm_answer wm_wide_names_judge(const uint8_t *payload, size_t payload_len);
/* The module's name. */
wm_answer wm_wide_module_name(const uint8_t *payload, size_t payload_len);
/* A function's name. */
wm_answer wm_wide_function_name(const uint8_t *payload, size_t payload_len, uint32_t function);
/* The name of a local in a function. */
wm_answer wm_wide_local_name(const uint8_t *payload, size_t payload_len, uint32_t function, uint32_t local);
/* The name of a label in a function. */
wm_answer wm_wide_label_name(const uint8_t *payload, size_t payload_len, uint32_t function, uint32_t label);
/* A type's name. */
wm_answer wm_wide_type_name(const uint8_t *payload, size_t payload_len, uint32_t type);
/* A table's name. */
wm_answer wm_wide_table_name(const uint8_t *payload, size_t payload_len, uint32_t table);
/* A memory's name. */
wm_answer wm_wide_memory_name(const uint8_t *payload, size_t payload_len, uint32_t memory);
/* A global's name. */
wm_answer wm_wide_global_name(const uint8_t *payload, size_t payload_len, uint32_t global);
/* An element segment's name. */
wm_answer wm_wide_element_name(const uint8_t *payload, size_t payload_len, uint32_t element);
/* A data segment's name. */
wm_answer wm_wide_data_name(const uint8_t *payload, size_t payload_len, uint32_t data);
/* The name of a field in a type. */
wm_answer wm_wide_field_name(const uint8_t *payload, size_t payload_len, uint32_t type, uint32_t field);
/* A tag's name. */
wm_answer wm_wide_tag_name(const uint8_t *payload, size_t payload_len, uint32_t tag);
/* The contents of the kept subsection with an id; NONE for the ids 0 to 11, which have questions of their own. */
wm_answer wm_wide_kept(const uint8_t *payload, size_t payload_len, uint8_t id);

/* The same questions through a module: judged after the walk, offsets from the module's start, NONE without the section. */

/* The module's name. */
wm_answer wm_wide_module_name_in(const uint8_t *module, size_t module_len);
/* A function's name. */
wm_answer wm_wide_function_name_in(const uint8_t *module, size_t module_len, uint32_t function);
/* The name of a local in a function. */
wm_answer wm_wide_local_name_in(const uint8_t *module, size_t module_len, uint32_t function, uint32_t local);
/* The name of a label in a function. */
wm_answer wm_wide_label_name_in(const uint8_t *module, size_t module_len, uint32_t function, uint32_t label);
/* A type's name. */
wm_answer wm_wide_type_name_in(const uint8_t *module, size_t module_len, uint32_t type);
/* A table's name. */
wm_answer wm_wide_table_name_in(const uint8_t *module, size_t module_len, uint32_t table);
/* A memory's name. */
wm_answer wm_wide_memory_name_in(const uint8_t *module, size_t module_len, uint32_t memory);
/* A global's name. */
wm_answer wm_wide_global_name_in(const uint8_t *module, size_t module_len, uint32_t global);
/* An element segment's name. */
wm_answer wm_wide_element_name_in(const uint8_t *module, size_t module_len, uint32_t element);
/* A data segment's name. */
wm_answer wm_wide_data_name_in(const uint8_t *module, size_t module_len, uint32_t data);
/* The name of a field in a type. */
wm_answer wm_wide_field_name_in(const uint8_t *module, size_t module_len, uint32_t type, uint32_t field);
/* A tag's name. */
wm_answer wm_wide_tag_name_in(const uint8_t *module, size_t module_len, uint32_t tag);
/* The contents of the kept subsection with an id. */
wm_answer wm_wide_kept_in(const uint8_t *module, size_t module_len, uint8_t id);

/* The canonical form of a name payload, in the wider edition. */
wm_answer wm_wide_names_canonical(const uint8_t *payload, size_t payload_len, uint8_t *out, size_t out_len);
/* Is a name payload canonical in the wider edition? 1 or 0. */
uint32_t wm_wide_names_is_canonical(const uint8_t *payload, size_t payload_len);

/* The older edition of branch hints, the payload of a section `branchHints`: a list of (function, one zero byte, list of
 * (kind, offset)), with kind 0 for unlikely and 1 for likely. It asks no order and allows repeats: the first hint in the
 * payload for a function and an offset answers. Its offsets count from the function's first instruction, where those of
 * wm_hint count from its declaration of locals, so the two editions are asked apart; a module may carry both. */

/* Is it accepted? FOUND with offset 0 and the payload's length. */
wm_answer wm_old_hints_judge(const uint8_t *payload, size_t payload_len);
/* The first hint for the branch at an offset of a function: NONE, UNLIKELY, LIKELY or REFUSED. */
wm_answer wm_old_hint(const uint8_t *payload, size_t payload_len, uint32_t function, uint32_t offset);
/* The same through a module: judged after the walk, offsets of refusals from the module's start, NONE without the section. */
wm_answer wm_old_hint_in(const uint8_t *module, size_t module_len, uint32_t function, uint32_t offset);
/* The canonical form, answered and written as the rewritings above: one entry for each function that has hints, both in
 * rising order, and of the hints for one offset the first. Refusal 15 where it would exceed 4,294,967,295 bytes, then 13. */
wm_answer wm_old_hints_canonical(const uint8_t *payload, size_t payload_len, uint8_t *out, size_t out_len);
/* Is a payload of the older edition canonical? 1 or 0. */
uint32_t wm_old_hints_is_canonical(const uint8_t *payload, size_t payload_len);

/* Why has this function or local no name? Asked of a name payload in the first edition, which is judged whole first.
 * Exactly one of the reasons 5 to 7 is true of a question that gets no name, and it is the one given; for a name that is
 * there it is said where it stands. What a kind does not name is 0.
 *
 *   kind                 fields
 *   WM_FOUND          1  code = id of the subsection (1 or 2), position = the entry's position in its map, from 0
 *   WM_REFUSED        2  code = refusal number, offset = where the fault lies
 *   WM_NO_SUBSECTION  5  there is no subsection 1; for a local, no subsection 2
 *   WM_NO_GROUP       6  subsection 2 has no group for the function (locals only)
 *   WM_NO_ENTRY       7  the map has no such index; has_below = 1 and below, has_above = 1 and above: the nearest indices
 *                        that it has; 0 and 0 where there is none
 *
 * A local's map is that of its function's group. Where subsection 1, or a group, is there with an empty map, it is
 * WM_NO_ENTRY with nothing below or above; a subsection 2 without any group is WM_NO_GROUP for every function. A payload
 * that the wider edition accepts is accepted here too, and has the same names of functions and locals: who uses the wider
 * edition asks there first. */

enum { WM_NO_SUBSECTION = 5, WM_NO_GROUP = 6, WM_NO_ENTRY = 7 };

typedef struct {
    uint32_t kind; uint32_t code; uint64_t offset; uint64_t position;
    uint32_t has_below; uint32_t below; uint32_t has_above; uint32_t above;
} wm_why;

/* Why has a function no name, or where does it stand? */
wm_why wm_why_function(const uint8_t *payload, size_t payload_len, uint32_t function);
/* Why has a local in a function no name, or where does it stand? */
wm_why wm_why_local(const uint8_t *payload, size_t payload_len, uint32_t function, uint32_t local);

/* Markers beside large maps of function names, for whoever asks one payload many times. They are made once: of every
 * sixteenth entry of the function names, the first included, the function index and the offset in the payload, at which the
 * index number of that entry starts; and the offset at which the subsection ends. The quick question is given them and
 * reads at most sixteen entries, where wm_function_name judges the payload and goes through all of it. With the markers
 * that were made from the very payload, in the first edition, it answers as wm_function_name does.
 *
 * The quick question does not judge the payload, and takes any lists and any end; a caller may have stored them. With
 * markers of something else, or of bytes that have changed since, its answer is still this: it starts at the last marker
 * not above the function (NONE without one), reads entry after entry, sixteen at most and none past the end, and the first
 * with that index answers. An entry that cannot be read whole before the end is answered NONE. Text is not checked: only
 * with its own markers is what it finds surely UTF-8. */

/* The markers of a name payload, which is judged whole first, by the first edition: FOUND with offset = where the
 * subsection of function names ends, 0 without one, and length = how many markers there are. They stand at the front of
 * both lists, and what is behind them is unchanged. One for each 32 bytes of the payload and one more are always enough.
 * REFUSED changes nothing. Refusals in this order: the payload's; 15; 13, where one of the lists is shorter. */
wm_answer wm_markers(const uint8_t *payload, size_t payload_len, uint32_t *indices, size_t indices_len,
                     uint32_t *offsets, size_t offsets_len);
/* A function's name by markers: the lists of wm_markers at their true length, and the end. Refusals: 15, 22. */
wm_answer wm_quick_function_name(const uint8_t *payload, size_t payload_len, const uint32_t *indices, size_t indices_len,
                                 const uint32_t *offsets, size_t offsets_len, uint64_t end, uint32_t function);

/* Does every hint of a module's section `metadata.code.branch_hint` stand on a branch? FOUND with offset 0 and the module's
 * length where each offset, counted from the first byte of its function's locals, begins a br_if (0x0D) or an if (0x04); so,
 * too, without the section, whatever the imports are. Code is read by core specification 1.0.
 * Refusals in this order: the walk's; the hint payload's; the import list's and then the list of bodies', 2, 3, 4 and 10,
 * with 29 at an import kind above 3 or a limits flag above 1; then hint by hint 19, no body for the function, at its index,
 * and at the hint's offset number 20, the locals or an instruction that starts before the place cannot be read, or 21, no
 * branch begins there. All offsets count from the module's first byte. */
wm_answer wm_hints_on_branches(const uint8_t *module, size_t module_len);

/* Names that travel beside a stripped module: one question over two name payloads, a separate one and the module's own,
 * which for a stripped module is empty. The separate payload answers unless it gives none, else the module's own. A
 * present and empty name, or an empty kept subsection, is an answer, and hides the other's.
 *
 * Both payloads are judged whole, the separate one first, whatever is asked: a damaged own payload is refused though the
 * separate one has the name. The payloads are only read, and may overlap.
 *
 *   kind           code            offset, length                       whose
 *   WM_NONE     0  0               0, 0                                 WM_NOBODY
 *   WM_FOUND    1  0               in the payload that supplied it      WM_SEPARATE or WM_OWN
 *               1  0               joined: 0, bytes written             WM_NOBODY
 *   WM_REFUSED  2  refusal number  where the fault lies in it, 0        WM_SEPARATE or WM_OWN
 *               2  15 or 13        of the joined payload: as above, 0   WM_NOBODY */

enum { WM_NOBODY = 0, WM_SEPARATE = 1, WM_OWN = 2 };

typedef struct { uint32_t kind; uint32_t code; uint64_t offset; uint64_t length; uint64_t whose; } wm_pair_answer;

/* The module's name. */
wm_pair_answer wm_pair_module_name(const uint8_t *separate, size_t separate_len, const uint8_t *own, size_t own_len);
/* A function's name. */
wm_pair_answer wm_pair_function_name(const uint8_t *separate, size_t separate_len, const uint8_t *own, size_t own_len,
                                     uint32_t function);
/* The name of a local in a function. */
wm_pair_answer wm_pair_local_name(const uint8_t *separate, size_t separate_len, const uint8_t *own, size_t own_len,
                                  uint32_t function, uint32_t local);
/* A type's name. */
wm_pair_answer wm_pair_type_name(const uint8_t *separate, size_t separate_len, const uint8_t *own, size_t own_len, uint32_t type);
/* The name of a field in a type. */
wm_pair_answer wm_pair_field_name(const uint8_t *separate, size_t separate_len, const uint8_t *own, size_t own_len,
                                  uint32_t type, uint32_t field);
/* A tag's name. */
wm_pair_answer wm_pair_tag_name(const uint8_t *separate, size_t separate_len, const uint8_t *own, size_t own_len, uint32_t tag);
/* The contents of the kept subsection with an id; NONE for the ids that have questions of their own. */
wm_pair_answer wm_pair_kept(const uint8_t *separate, size_t separate_len, const uint8_t *own, size_t own_len, uint8_t id);
/* Both payloads joined into one that is canonical and answers every question, kept subsections too, as the pair does: maps
 * are merged index by index, and so are the groups of one function or type; where both have an entry, it is the separate
 * payload's. It is answered and written as the rewritings above; an output as long as both payloads together is always
 * enough. Refusals in this order: the payloads'; 15, where the contents of a joined subsection would exceed 4,294,967,295
 * bytes; 13. */
wm_pair_answer wm_pair_join(const uint8_t *separate, size_t separate_len, const uint8_t *own, size_t own_len,
                            uint8_t *out, size_t out_len);

/* The same in the wider edition, by which both payloads are judged. */

/* The module's name. */
wm_pair_answer wm_wide_pair_module_name(const uint8_t *separate, size_t separate_len, const uint8_t *own, size_t own_len);
/* A function's name. */
wm_pair_answer wm_wide_pair_function_name(const uint8_t *separate, size_t separate_len, const uint8_t *own, size_t own_len,
                                          uint32_t function);
/* The name of a local in a function. */
wm_pair_answer wm_wide_pair_local_name(const uint8_t *separate, size_t separate_len, const uint8_t *own, size_t own_len,
                                       uint32_t function, uint32_t local);
/* The name of a label in a function. */
wm_pair_answer wm_wide_pair_label_name(const uint8_t *separate, size_t separate_len, const uint8_t *own, size_t own_len,
                                       uint32_t function, uint32_t label);
/* A type's name. */
wm_pair_answer wm_wide_pair_type_name(const uint8_t *separate, size_t separate_len, const uint8_t *own, size_t own_len,
                                      uint32_t type);
/* A table's name. */
wm_pair_answer wm_wide_pair_table_name(const uint8_t *separate, size_t separate_len, const uint8_t *own, size_t own_len,
                                       uint32_t table);
/* A memory's name. */
wm_pair_answer wm_wide_pair_memory_name(const uint8_t *separate, size_t separate_len, const uint8_t *own, size_t own_len,
                                        uint32_t memory);
/* A global's name. */
wm_pair_answer wm_wide_pair_global_name(const uint8_t *separate, size_t separate_len, const uint8_t *own, size_t own_len,
                                        uint32_t global);
/* An element segment's name. */
wm_pair_answer wm_wide_pair_element_name(const uint8_t *separate, size_t separate_len, const uint8_t *own, size_t own_len,
                                         uint32_t element);
/* A data segment's name. */
wm_pair_answer wm_wide_pair_data_name(const uint8_t *separate, size_t separate_len, const uint8_t *own, size_t own_len,
                                      uint32_t data);
/* The name of a field in a type. */
wm_pair_answer wm_wide_pair_field_name(const uint8_t *separate, size_t separate_len, const uint8_t *own, size_t own_len,
                                       uint32_t type, uint32_t field);
/* A tag's name. */
wm_pair_answer wm_wide_pair_tag_name(const uint8_t *separate, size_t separate_len, const uint8_t *own, size_t own_len,
                                     uint32_t tag);
/* The contents of the kept subsection with an id. */
wm_pair_answer wm_wide_pair_kept(const uint8_t *separate, size_t separate_len, const uint8_t *own, size_t own_len, uint8_t id);
/* Both payloads joined into one. */
wm_pair_answer wm_wide_pair_join(const uint8_t *separate, size_t separate_len, const uint8_t *own, size_t own_len,
                                 uint8_t *out, size_t out_len);

/* A module as it arrives, in parts that are cut anywhere, some of no length: one that is too large to be held, or an upload
 * that is judged while it comes. No part is kept. At the finish the answer is the walk's on all parts joined, with the
 * places of three payloads, counted from the module's first byte. It is the same however the module was cut.
 *
 * What is known between two parts is a small state, which is the caller's: begun once, lent to each call by a pointer to
 * memory that is aligned for uint64_t, and not copied from one place to another. Its first field is how many bytes were
 * taken so far, and stays after the finish; the others are the library's own. There is no padding in it, and parts that
 * join to the same bytes leave the same bytes in it. A call on a state that nobody began, whatever bytes it has, ends and
 * does nothing undefined.
 *
 * A part of no length is taken like any other, and so are parts of a module that will be refused: what is wrong with it is
 * said at the finish, since a section that runs past the end of everything goes before what is wrong with its name. The
 * finish of a refused module is a finish, too. Refusals 18, then 28, leave the state as it was, and the next part is
 * taken as if the refused one had not come. */

typedef struct { uint64_t total; uint64_t rest[14]; } wm_stream;

/* kind, code, offset and length as wm_walk's answer. The kind of a place is WM_NONE or WM_FOUND; with WM_NONE its offset
 * and length are 0, and with a refusal all nine fields of the places are 0. */
typedef struct {
    uint32_t kind; uint32_t code; uint64_t offset; uint64_t length;
    uint64_t name_kind; uint64_t name_offset; uint64_t name_length;
    uint64_t hints_kind; uint64_t hints_offset; uint64_t hints_length;
    uint64_t old_hints_kind; uint64_t old_hints_offset; uint64_t old_hints_length;
} wm_stream_answer;

/* The state of a stream of which nothing has come. */
wm_stream wm_stream_begin(void);
/* Takes the next part: FOUND with offset 0 and the part's length. Refusals in this order: 18, 28. */
wm_answer wm_stream_part(wm_stream *stream, const uint8_t *part, size_t part_len);
/* There are no more parts: FOUND with offset 0, length = count of sections, and where the payloads of `name`, of
 * `metadata.code.branch_hint` and of `branchHints` lie. Refusals: 18, or the walk's. */
wm_stream_answer wm_stream_finish(wm_stream *stream);

/* A table of name payloads that customers share. There are 16 customers, 0 to 15, with 8 holds each, 0 to 7. A customer opens
 * a payload, of the first edition, and gets their lowest unused hold; asks function names through it; and closes it. Each
 * payload is stored in its canonical form, and equal ones are stored once, whoever opens them; the last close of a payload
 * frees its blocks, which are used again. What a customer is answered depends on nothing that others do, nor on when gaps in
 * the store are closed, but for refusal 26; and no answer says where something stands in the store.
 *
 * The store is memory of 1 to 128 blocks of 512 bytes, which the caller lends at each call as the call before left it; at the
 * start it may hold anything. A block has 508 bytes of payload, zeros behind the payload's end, then the check: the wrapping
 * sum of those 127 little-endian words, as such a word. A payload takes the first run of free blocks that is long enough, an
 * empty one a block; free blocks keep what they hold. Checks are for what something else wrote to the store: an open and a
 * compaction need all used blocks, a question those of its payload, a close none.
 *
 * What is known between two calls is the table, which is the caller's and is lent by a pointer to memory that is aligned for
 * uint64_t. Its fields are the library's own: copy it as you like, with its store or from one place to another, but never go
 * on with two copies over one store, since each would give away the blocks of the other. There is no padding in it, and a
 * question or a refused call leaves all of its bytes as they were. A call on a table that nobody started, whatever bytes it
 * has, ends and does nothing undefined.
 *
 * A refusal changes neither table nor store nor buffers, save that after 27 and 26 an open leaves the canonical payload at
 * the front of the work buffer, as where it is granted. */

typedef struct { uint8_t holds[128]; uint8_t users[128]; uint32_t sizes[128]; uint64_t bytes; } wm_table;

/* A table over a store of that length, with nothing stored. It refuses nothing, and the store is not looked at: calls on a
 * store that is not 1 to 128 blocks, or has another length than here, are refused 30. */
wm_table wm_table_start(uint64_t store_len);
/* A customer opens a payload: FOUND with offset 0, length = the hold. The canonical payload stands at the front of work, and
 * what is behind it is unchanged; a work buffer as long as the payload is always enough. The store is written where the
 * payload was not stored yet, in the blocks that it takes. Refusals in this order: 30; 23; the payload's; 13 with the length
 * that work needs; 25; 27; 26. */
wm_answer wm_table_open(wm_table *table, uint8_t *store, size_t store_len, uint32_t customer,
                        const uint8_t *payload, size_t payload_len, uint8_t *work, size_t work_len);
/* A function's name through a hold: FOUND with offset 0, length = bytes of the name, which is copied to the front of out; NONE
 * without a name. An output as long as the payload that was opened is always enough. Refusals in this order: 30; 23; 24; 27;
 * 13 with the length of the name. */
wm_answer wm_table_function_name(const wm_table *table, const uint8_t *store, size_t store_len, uint32_t customer, uint32_t hold,
                                 uint32_t function, uint8_t *out, size_t out_len);
/* A customer closes a hold: FOUND with offset 0, length 0. Refusals in this order: 30; 23; 24. */
wm_answer wm_table_close(wm_table *table, const uint8_t *store, size_t store_len, uint32_t customer, uint32_t hold);
/* Closes the gaps that closes have left, for whoever looks after the table: the stored blocks go to the front of the store, in
 * their order, and the blocks behind them keep their bytes. FOUND with offset 0, length 0, also where there is no gap. Every
 * customer is answered as before, save that an open that is refused 26 may be granted: the first one that gets as far, with no
 * close between, is refused 26 exactly where its payload is not stored yet and too few blocks are free in all. Refusals in
 * this order: 30; 27 where the check of any used block is wrong, whether it would move or not, found before anything moves. */
wm_answer wm_table_compact(wm_table *table, uint8_t *store, size_t store_len);

/* Entries: every row in one pass, put at the front of the lent lists, in order. FOUND with offset 0 and length = how many rows
 * there are; what stands behind them is unchanged. A payload is judged whole first, whatever is asked of it. Refusals in this
 * order: the payload's; 13 with the number of rows, where one of the lists is shorter. REFUSED and NONE change no list. */

/* One subsection of a name payload, by its id: the index (0 for id 0), the index within it (0 for plain maps), and where each
 * name lies in the payload. NONE without such a subsection, and for ids that are kept. */
wm_answer wm_names_list(const uint8_t *payload, size_t payload_len, uint8_t id, uint32_t *firsts, size_t firsts_len,
                        uint32_t *seconds, size_t seconds_len, uint64_t *offsets, size_t offsets_len,
                        uint64_t *lengths, size_t lengths_len);
/* The same by the wider edition. */
wm_answer wm_wide_names_list(const uint8_t *payload, size_t payload_len, uint8_t id, uint32_t *firsts, size_t firsts_len,
                             uint32_t *seconds, size_t seconds_len, uint64_t *offsets, size_t offsets_len,
                             uint64_t *lengths, size_t lengths_len);
/* Metadata of any format: function, code offset, and where its data lies in the payload. */
wm_answer wm_metadata_list(const uint8_t *payload, size_t payload_len, uint32_t *functions, size_t functions_len,
                           uint32_t *code_offsets, size_t code_offsets_len, uint64_t *offsets, size_t offsets_len,
                           uint64_t *lengths, size_t lengths_len);
/* Branch hints: function, code offset, and 0 for unlikely or 1 for likely. */
wm_answer wm_hints_list(const uint8_t *payload, size_t payload_len, uint32_t *functions, size_t functions_len,
                        uint32_t *code_offsets, size_t code_offsets_len, uint32_t *likely, size_t likely_len);
/* Hints of the older edition: function, offset, and 0 for unlikely or 1 for likely. Every pair of a function and an offset
 * that has a hint stands once, by function and then offset, with the hint that wm_old_hint answers with. Lists of half as many
 * numbers as the payload has bytes are always enough. */
wm_answer wm_old_hints_list(const uint8_t *payload, size_t payload_len, uint32_t *functions, size_t functions_len,
                            uint32_t *code_offsets, size_t code_offsets_len, uint32_t *likely, size_t likely_len);

#ifdef __cplusplus
}
#endif
#endif
