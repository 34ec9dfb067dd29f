/* The club's record server, for C: three operations on three arrays that the caller lends.
   Link with crates/exports/out/libexports.a (tools/library builds it), x86-64. Nothing is kept between calls but what the arrays hold.
   The three belong together: the fields carry masks made from these tables. Beside tables of another opening the masks decide who reads, not the policy. */
#ifndef JESOVANGA_H
#define JESOVANGA_H

#include <stddef.h>
#include <stdint.h>

#define JESOVANGA_TABLES 47200 /* bytes: users, environment lines and policy lines */
#define JESOVANGA_LOGINS 96    /* numbers: logins, whether a session is open, fields created, for each of 32 users */
#define JESOVANGA_RECORD 36352 /* bytes: 256 fields, each with the mask of those who may read it */
#define JESOVANGA_COPY 51069   /* bytes: no copy and no saved text of a run is longer */
#define JESOVANGA_LIST 32      /* numbers that a list has to have room for */

/* The same numbers as the library has them: a caller compares them once, when it starts. */
size_t jesovanga_tables(void);
size_t jesovanga_logins(void);
size_t jesovanga_record(void);
size_t jesovanga_copy(void);
size_t jesovanga_list(void);

/* What an answered number is. */
enum jesovanga_kind { JESOVANGA_REFUSED = 0, JESOVANGA_SESSION = 1, JESOVANGA_LENGTH = 2, JESOVANGA_ACCEPTED = 3 };

/* Opens the four texts: 0, and the arrays hold the new state, the same bytes for the same texts whatever they held; or the number of the refusal, with its text
   (1 to 4) in *source and its line, and the arrays keep every byte. All zeros are a state too: no users and no fields. */
size_t jesovanga_open(uint8_t *tables, uint16_t *logins, uint8_t *fields,
                      const uint8_t *users, size_t users_length,
                      const uint8_t *environments, size_t environments_length,
                      const uint8_t *policy, size_t policy_length,
                      const uint8_t *record, size_t record_length,
                      size_t *source, size_t *line);

/* Answers one line, without its 0A. The number is the refusal's (11 to 18), the session's, the copy's length in the buffer, or how many
   numbers the list received, which after a LOGOUT is 0; *kind says which. A refusal changes nothing. */
size_t jesovanga_request(const uint8_t *tables, uint16_t *logins, uint8_t *fields,
                         const uint8_t *line, size_t line_length,
                         uint8_t *buffer, size_t buffer_length,
                         uint32_t *list, size_t list_length,
                         uint32_t *kind);

/* Writes the saved text: its length, or the refusal 15. */
size_t jesovanga_save(const uint8_t *fields, uint8_t *buffer, size_t buffer_length, uint32_t *kind);

#endif
