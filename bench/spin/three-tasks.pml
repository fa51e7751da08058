/* bench/races/three-tasks.race: two backups, three writes and two remounts there and back, on two
 * processors. */
#define TASKS 3
#define CPUS 2
#define CALLS 16
#include "gates.pml"

active proctype backup() {
  freeze(0, 0);
  snapshot(0, 1);
  thaw(0, 2);
  freeze(0, 3);
  snapshot(0, 4);
  thaw(0, 5);
  end: false
}

active proctype writer() {
  want_write(1, 0, 6);
  drop_write(1, 6, 7);
  want_write(1, 0, 8);
  drop_write(0, 8, 9);
  want_write(1, 0, 10);
  drop_write(1, 10, 11);
  end: false
}

active proctype remounter() {
  remount_ro(2, 12);
  remount_rw(2, 13);
  remount_ro(2, 14);
  remount_rw(2, 15);
  end: false
}
