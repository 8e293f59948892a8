/* Keytabs and credential caches in their files: the program krbfile(1) holds a file, gives its image, and saves the
 * one that it gets back. The program is what KRBFILE names, if that is set and not empty, else krbfile on PATH: nothing
 * for a process with more rights than its user.
 *
 * Until the edit ends, other programs that would save the file wait, ten seconds at most. The program is a child of the
 * caller in a session of its own, and writes messages to the standard error. Its last line says how it ended, so the
 * caller may ignore or handle SIGCHLD, and wait for any child. If the caller is killed before a save, nothing is saved;
 * a child that it forked meanwhile keeps the file held while it lives. */
#ifndef KRBFILE_FILES_H
#define KRBFILE_FILES_H

#include "krbfile.h"

#ifdef __cplusplus
extern "C" {
#endif

/* What a call returns too, beside the numbers that krbfile.h has for a file or an image that is refused. */
enum {
    KRBF_LOST = 61,                     /* saved, but a change that another program made meanwhile is lost */
    KRBF_UNKNOWN = 62,                  /* it is not known whether it is saved: both wrote, or the program was killed */
    KRBF_ERRNO = 1000                   /* with an errno added: not saved, or the program cannot be started */
};

/* Options. Without any the file is a cache, and a new one takes its place. */
enum {
    KRBF_EDIT_KEYTAB = 1,               /* it is a keytab; a missing one begins as an empty one of version 2 */
    KRBF_EDIT_V1_BIG = 2,               /* with KRBF_EDIT_KEYTAB: one of version 1 is big-endian */
    KRBF_EDIT_IN_PLACE = 4              /* a save writes to the file itself, which is not missing */
};

/* A file that is held, used by one call at a time. */
typedef struct krbf_edit krbf_edit;

/* Holds a file, whose name ends in NUL and may begin with FILE:, and gives its image, which is read until the edit
 * ends. Unless it returns KRBF_DONE nothing is held, and edit is NULL. KRBF_DAMAGED, what krbf_kt_open and krbf_cc_open
 * return, an errno: ENOENT of a missing cache, EAGAIN of a file that others hold, EIO where no cause is known. */
uint32_t krbf_edit_begin(const char *name, uint32_t options, krbf_edit **edit, krbf_bytes *image);

/* Saves an image, unless that is as it was, and ends the edit, whatever it returns: KRBF_LOST, KRBF_UNKNOWN, or why
 * the file is as it was. In a forked child that is EIO. */
uint32_t krbf_edit_save(krbf_edit *edit, krbf_bytes image);

/* Ends the edit, and the file is as it was. NULL is no edit. EIO if the program had ended before. */
uint32_t krbf_edit_leave(krbf_edit *edit);

#ifdef __cplusplus
}
#endif

#endif
