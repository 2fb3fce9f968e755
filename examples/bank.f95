struct FairLock { unsigned next; unsigned now; };
void fair_take(struct FairLock *l) { pr unsigned t = mpadd(&l->next, 1); while (l->now != t) ; }
void fair_give(struct FairLock *l) { mpadd(&l->now, 1); }
/* Deposits to two accounts, each with a fair lock of its own, and to one without a lock.

       ./fork95 run examples/bank.f95 --harts 16 --cycles 1000000 </dev/null

   The first three lines are the text of the fair lock, which ./fork95 locks gives. Every processor
   makes ten deposits of 1 to one of the two accounts. A deposit is a read, a sum and a write, and
   between fair_take and fair_give no other processor is at the same account, so all 80 deposits to
   each are there. The account without a lock gets 160 deposits too, and some of them are lost. */
#include <io.h>

struct Account { struct FairLock lock; int balance; };

sh struct Account accounts[2];
sh int careless;

void deposit(struct Account *a) {
  fair_take(&a->lock);
  a->balance = a->balance + 1;
  fair_give(&a->lock);
}

void main(void) {
  int i;
  for (i = 0; i < 10; i++) deposit(&accounts[__PROC_NR__ % 2]);
  for (i = 0; i < 10; i++) careless = careless + 1;
  barrier;
  if (__PROC_NR__ == 0) {
    putint(accounts[0].balance);
    putint(accounts[1].balance);
    if (careless < 160) puts("deposits without a lock were lost\n");
  }
}
