/* bench/races/four-tasks.race: a backup, two writers and a remount script. */
#define TASKS 4
#define CPUS 1
#define CALLS 11
#include "gates.pml"

active proctype backup() { freeze(0, 0); snapshot(0, 1); thaw(0, 2); end: false }

active proctype writer() { want_write(1, 0, 3); drop_write(0, 3, 4); end: false }

active proctype remounter() { remount_ro(2, 5); remount_rw(2, 6); end: false }

active proctype other_writer() {
  want_write(3, 0, 7);
  drop_write(0, 7, 8);
  want_write(3, 0, 9);
  drop_write(0, 9, 10);
  end: false
}
