/* The functions of include/mizzencord.h under names of their own, so that a program links this panel beside the library. */
#ifndef PREFIX_H
#define PREFIX_H

#define mizzencord_fresh peer_fresh
#define mizzencord_invoke peer_invoke
#define mizzencord_deliver peer_deliver
#define mizzencord_commit peer_commit
#define mizzencord_receive peer_receive
#define mizzencord_undo peer_undo
#define mizzencord_execute peer_execute
#define mizzencord_run_due peer_run_due
#define mizzencord_register peer_register
#define mizzencord_requests peer_requests
#define mizzencord_committed peer_committed
#define mizzencord_commits peer_commits
#define mizzencord_undos peer_undos
#define mizzencord_executions peer_executions
#define mizzencord_owed peer_owed
#define mizzencord_at_place peer_at_place
#define mizzencord_panels peer_panels
#define mizzencord_own peer_own
#define mizzencord_made peer_made
#define mizzencord_request_status peer_request_status
#define mizzencord_version peer_version
#define mizzencord_read peer_read
#define mizzencord_write peer_write
#define mizzencord_print peer_print
#define mizzencord_run peer_run

#include "mizzencord.h"

#endif
