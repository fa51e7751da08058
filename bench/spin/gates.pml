/* The gates of a small file system, for Spin, written by hand: one mount, and a node beside the
 * root. One statement is one event on one word, or the beginning of a call. A section word is kept
 * by its parity, and what a grace period found first by whether it is there still, as mntgate's
 * searches keep them. TASKS, CPUS and CALLS are of the model that includes this. */
byte umount;
byte stage;
byte holders;
bit sb;
bit remount;
byte removed;
byte flags;                            /* of the mount: 1 READONLY, 2 HOLD */
byte node1;
short mount_count[CPUS];
short level_count[4 * CPUS];           /* that of level L on processor C at L * CPUS + C */
bit block[4];
byte gp_state[4];                      /* 0 idle, 1 enter, 2 passed, 3 exit, 4 replay */
byte gp_count[4];
bit inside[TASKS];

/* What a freeze or a remount has read: each holds `umount`, or is the only freeze. */
byte awaited;                          /* the task at whose section its grace period is */
byte first;                            /* what it found there: 0 nothing yet, 1 what is there
                                          still, 2 what has gone */
byte summed;                           /* how many words */
short total;

/* 0 none yet, 1 ok, 2 refused */
byte answer[CALLS];

#define LOCK(me) atomic { umount == 0 -> umount = me + 1 }
#define UNLOCK(a, how) d_step { umount = 0; answer[a] = how }

/* Sections. */
inline leave_section(me) {
  d_step { inside[me] = 0; if :: first == 1 && awaited == me -> first = 2 :: else -> skip fi }
}

inline await_sections() {
  do
  :: atomic { (inside[awaited] == 0 || first == 2) && awaited + 1 < TASKS -> first = 0; awaited++ }
  :: atomic { (inside[awaited] == 0 || first == 2) && awaited + 1 == TASKS ->
       first = 0; awaited = 0; break }
  :: atomic { inside[awaited] == 1 && first == 0 -> first = 1 }
  od
}

/* A level is closed: rcu_sync_enter, `block`, and the sum of its counts, which is read again until
 * it is 0. */
inline down_write(level) {
  if
  :: gp_state[level] == 0 ->
     d_step { gp_state[level] = 1; gp_count[level] = 1 };
     await_sections();
     skip;
     gp_state[level] = 2
  :: gp_state[level] != 0 ->
     gp_count[level] = 1;
     gp_state[level] >= 2
  fi;
  block[level] = 1;
  do
  :: atomic { summed + 1 < CPUS -> total = total + level_count[level * CPUS + summed]; summed++ }
  :: atomic { summed + 1 == CPUS && total + level_count[level * CPUS + summed] == 0 ->
       summed = 0; total = 0; break }
  :: atomic { summed + 1 == CPUS && total + level_count[level * CPUS + summed] != 0 ->
       summed = 0; total = 0 }
  od
}

inline up_write(level) {
  block[level] = 0;
  skip;
  d_step {
    gp_count[level] = 0;
    if
    :: gp_state[level] == 2 -> gp_state[level] = 3
    :: gp_state[level] == 3 -> gp_state[level] = 4
    :: else -> skip
    fi
  }
}

/* Freezes. */
inline freeze(me, a) {
  skip;
  LOCK(me);
  if
  :: stage != 0 -> UNLOCK(a, 2)
  :: stage == 0 ->
     if
     :: sb == 1 -> stage = 4
     :: sb == 0 ->
        stage = 1;
        umount = 0;
        down_write(1);
        LOCK(me);
        stage = 2;
        down_write(2);
        node1 = node1 & 251;
        stage = 3;
        down_write(3);
        stage = 4
     fi;
     holders = 2;
     UNLOCK(a, 1)
  fi
}

inline snapshot(me, a) {
  skip;
  LOCK(me);
  if
  :: stage != 4 -> UNLOCK(a, 2)
  :: stage == 4 ->
     skip;
     skip;
     skip;
     skip;
     skip;
     UNLOCK(a, 1)
  fi
}

inline thaw(me, a) {
  skip;
  LOCK(me);
  if
  :: stage != 4 -> UNLOCK(a, 2)
  :: stage == 4 ->
     if
     :: holders != 2 -> UNLOCK(a, 2)
     :: holders == 2 ->
        if
        :: sb == 1 -> holders = 0; stage = 0
        :: sb == 0 -> holders = 0; stage = 0; up_write(3); up_write(2); up_write(1)
        fi;
        UNLOCK(a, 1)
     fi
  fi
}

/* Writers. */
inline start(me, cpu) {
  do
  :: inside[me] = 1;
     if
     :: gp_state[1] == 0 ->
        level_count[CPUS + cpu]++;
        leave_section(me);
        break
     :: gp_state[1] != 0 ->
        level_count[CPUS + cpu]++;
        if
        :: block[1] == 0 -> leave_section(me); break
        :: block[1] == 1 -> level_count[CPUS + cpu]--; leave_section(me)
        fi
     fi
  od
}

inline refuse_write(cpu, a) {
  mount_count[cpu]--;
  d_step { level_count[CPUS + cpu]--; answer[a] = 2 }
}

inline want_write(me, cpu, a) {
  skip;
  start(me, cpu);
  mount_count[cpu]++;
  (flags & 2) == 0;
  if
  :: remount == 1 -> refuse_write(cpu, a)
  :: remount == 0 ->
     if
     :: (flags & 1) != 0 -> refuse_write(cpu, a)
     :: (flags & 1) == 0 ->
        if
        :: sb == 1 -> refuse_write(cpu, a)
        :: d_step { sb == 0 -> answer[a] = 1 }
        fi
     fi
  fi
}

/* Gives back what another call was granted, if it was. */
inline drop_write(cpu, granted, a) {
  if
  :: answer[granted] == 1 ->
     mount_count[cpu]--;
     d_step { level_count[CPUS + cpu]--; answer[a] = 1 }
  :: d_step { answer[granted] == 2 -> answer[a] = 2 }
  fi
}

/* Remounts. */
inline remount_ro(me, a) {
  skip;
  LOCK(me);
  if
  :: stage != 0 -> UNLOCK(a, 2)
  :: stage == 0 ->
     if
     :: sb == 1 -> UNLOCK(a, 1)
     :: sb == 0 ->
        removed == 0;
        (flags & 1) == 0;
        flags = flags | 2;
        do
        :: atomic { summed + 1 < CPUS -> total = total + mount_count[summed]; summed++ }
        :: atomic { summed + 1 == CPUS && total + mount_count[summed] != 0 ->
             summed = 0; total = 0 };
           flags = flags & 253;
           UNLOCK(a, 2);
           break
        :: atomic { summed + 1 == CPUS && total + mount_count[summed] == 0 ->
             summed = 0; total = 0 };
           removed == 0;
           remount = 1;
           flags = flags & 253;
           node1 = node1 & 251;
           sb = 1;
           remount = 0;
           UNLOCK(a, 1);
           break
        od
     fi
  fi
}

inline remount_rw(me, a) {
  skip;
  LOCK(me);
  if
  :: stage != 0 -> UNLOCK(a, 2)
  :: stage == 0 ->
     if
     :: sb == 0 -> skip
     :: sb == 1 -> sb = 0
     fi;
     UNLOCK(a, 1)
  fi
}
