/*
 * The control socket and the signals: one thread, which serves no request of FUSE.
 *
 * A client sends a command as a line, and gets a line: "ok: " with the status, or "refused: "
 * with why. The commands are freeze, thaw, ro, rw and status; `during`, a freeze that lasts no
 * longer than the connection; and `release`, its end, which is refused if somebody has thawed.
 */
#ifndef CONTROL_H
#define CONTROL_H

/* Listens at a path at which nothing is, for the daemon's user alone. 0 or an errno. */
int control_open(const char *path);

/*
 * Does what the clients ask for, until a signal of `signals` comes, a signalfd, or until something
 * can be read from `ended`. Gives the number of the signal, or 0.
 */
int control_run(int signals, int ended);

void control_close(void);

#endif
