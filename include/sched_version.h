/* The version of the libraries whose headers stand beside this one, and which include it.
 *
 *     #if SCHED_VERSION_MAJOR > 0 || SCHED_VERSION_MINOR >= 1
 *
 * Numbers that come later are greater: the patch where nothing of the headers changed, the minor where calls or members were
 * added, the major where a program has to be changed. Before 1.0.0 the minor may do so too. tools/version sets all of them.
 */
#ifndef SCHED_VERSION_H
#define SCHED_VERSION_H

#define SCHED_VERSION_MAJOR 0
#define SCHED_VERSION_MINOR 1
#define SCHED_VERSION_PATCH 0

/* The three as text. */
#define SCHED_VERSION "0.1.0"

#endif
