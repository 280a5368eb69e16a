/* The native lock of docs/ROWS.md for SPIN, for a comparison of speed: one lock, and CPUS processors that acquire and release it ROUNDS
   times. Each row is one atomic step; a poll is a step that waits until it leads on. */
#ifndef CPUS
#define CPUS 3
#endif
#ifndef ROUNDS
#define ROUNDS 2
#endif
#define FREE (!locked && !pending && tail == 0)
bit locked, pending;
byte tail;
bit flag[CPUS];
byte next[CPUS];
active [CPUS] proctype cpu() {
  byte prev, y, round;
F1:
  atomic {
    if
    :: FREE -> locked = 1; goto U1
    :: !locked && pending && tail == 0 -> goto P0
    :: pending && locked || tail != 0 -> goto G1
    :: locked && !pending && tail == 0 -> goto P1
    fi
  }
P0:
  atomic { if :: pending || tail != 0 -> goto G1 :: else -> goto P1 fi }
P1:
  atomic {
    if
    :: pending -> goto G1
    :: !pending && tail != 0 -> pending = 1; goto P2
    :: !pending && tail == 0 && locked -> pending = 1; goto P3
    :: !pending && tail == 0 && !locked -> pending = 1; goto P4
    fi
  }
P2:
  atomic { pending = 0; goto G1 }
P3:
  atomic { !locked -> goto P4 }
P4:
  atomic { locked = 1; pending = 0; goto U1 }
G1:
  atomic { flag[_pid] = 0; next[_pid] = 0; goto G2 }
G2:
  atomic { if :: FREE -> goto G3 :: else -> goto G4 fi }
G3:
  atomic { if :: FREE -> locked = 1; goto U1 :: else -> goto G4 fi }
G4:
  atomic { if :: tail == 0 -> tail = _pid + 1; goto G7 :: else -> prev = tail; tail = _pid + 1; goto G5 fi }
G5:
  atomic { next[prev - 1] = _pid + 1; goto G6 }
G6:
  atomic { flag[_pid] -> goto G7 }
G7:
  atomic { !locked && !pending -> if :: tail == _pid + 1 -> goto G8 :: else -> goto G9 fi }
G8:
  atomic { if :: !locked && !pending && tail == _pid + 1 -> locked = 1; tail = 0; goto U1 :: else -> goto G9 fi }
G9:
  atomic { locked = 1; goto G10 }
G10:
  atomic { next[_pid] != 0 -> y = next[_pid]; goto G11 }
G11:
  atomic { flag[y - 1] = 1; goto U1 }
U1:
  atomic { locked = 0; round++; if :: round < ROUNDS -> goto F1 :: else -> goto over fi }
over:
  skip
}
