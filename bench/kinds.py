"""The scripts of one kind of command each. A kind yields its accounts with their starts, and then its commands.

All have two sites, but for those whose names end in a number, and the token stays at site 0. Names are known
beforehand: the n-th blue operation that site 0 makes is B0.n, the n-th red one is Rn. So a command costs the same time
however long the script is.
"""
import itertools
import random

from limits import LIMITS

RICH = LIMITS["MOST_CENTS"]
FEW = [f"a{place}" for place in range(10)]
# As many operations as an inbox holds.
DEPTH = LIMITS["MOST_INBOX"]
# Of the cancellations: this number of operations is there before the first, and may be cancelled at any time after.
POOL = 256


def deposit(account, amount, site=0):
    return f'{{"deposit":["{account}",{amount}],"site":{site}}}'


def withdraw(account, amount, site=0):
    return f'{{"withdraw":["{account}",{amount}],"site":{site}}}'


def transfer(account, to, amount, site=0):
    return f'{{"site":{site},"transfer":["{account}","{to}",{amount}]}}'


def cancel(name):
    return f'{{"cancel":"{name}","site":0}}'


def batch(*requests):
    """A batch at site 0 of what the requests would be by themselves."""
    inner = ",".join(request.replace(',"site":0', "") for request in requests)
    return f'{{"batch":[{inner}],"site":0}}'


def balance(account):
    return f'{{"balance":"{account}","site":0}}'


def statement(account):
    return f'{{"site":0,"statement":"{account}"}}'


def asof(account, position):
    return f'{{"asof":["{account}",{position}],"site":0}}'


def deliver(message):
    return f'{{"deliver":{message},"site":1}}'


def apply(name):
    return f'{{"apply":"{name}","site":1}}'


def picker(seed):
    """A function that picks a number from 0 to below another one."""
    uniform = random.Random(seed).random
    return lambda below: int(uniform() * below)


def deposits(seed, commands):
    """Deposits on one account; every tenth command asks for its balance."""
    pick = picker(seed)
    yield [("a0", 0)]
    for done in range(1, commands + 1):
        yield balance("a0") if done % 10 == 0 else deposit("a0", 1 + pick(1000))


def batches(seed, commands):
    """Batches of four: a deposit, interest, a withdrawal, and what cancels the withdrawal of the batch before."""
    pick = picker(seed)
    yield [(name, RICH // 10) for name in FEW]
    for done in range(commands):
        account = FEW[pick(10)]
        interest = f'{{"interest":["{account}",{pick(2)}],"site":0}}'
        last = cancel(f"R{done}") if done else deposit(account, 1)
        yield batch(deposit(account, 1 + pick(1000)), interest, withdraw(FEW[pick(10)], 1 + pick(500)), last)


def pairs(seed, commands):
    """Batches of two deposits on one account."""
    pick = picker(seed)
    yield [("a0", 0)]
    for _ in range(commands):
        yield batch(deposit("a0", 1 + pick(1000)), deposit("a0", 1 + pick(1000)))


def asofs(seed, commands):
    """Deposits on ten accounts, and then as many balances as of any position among them."""
    pick = picker(seed)
    yield [(name, 0) for name in FEW]
    made = commands // 2
    for _ in range(made):
        yield deposit(FEW[pick(10)], 1 + pick(1000))
    for _ in range(commands - made):
        yield asof(FEW[pick(10)], pick(made + 1))


def statements(seed, commands):
    """Deposits, ten on each of 100 quiet accounts and all others on a busy one, and then statements of quiet ones."""
    pick = picker(seed)
    quiet = [f"q{place}" for place in range(100)]
    yield [("busy", 0)] + [(name, 0) for name in quiet]
    made = commands // 2
    every = max(1, made // 1000)
    for done in range(made):
        turn, rest = divmod(done, every)
        yield deposit(quiet[turn % 100] if rest == 0 and turn < 1000 else "busy", 1 + pick(1000))
    for _ in range(commands - made):
        yield statement(quiet[pick(100)])


def rows(seed, shown):
    """So many rows: deposits on one account, a hundredth of the rows, and then 100 statements of it."""
    pick = picker(seed)
    yield [("a0", 0)]
    for _ in range(shown // 100):
        yield deposit("a0", 1 + pick(1000))
    for _ in range(100):
        yield statement("a0")


def inbox(seed, commands):
    """Rounds of deposits, at most as many as an inbox holds, each delivered backwards and then applied in order."""
    pick = picker(seed)
    yield [(name, 0) for name in FEW]
    first = 1
    while commands >= 3:
        depth = min(DEPTH, commands // 3)
        commands -= 3 * depth
        for _ in range(depth):
            yield deposit(FEW[pick(10)], 1 + pick(1000))
        yield from (deliver(message) for message in range(first + depth - 1, first - 1, -1))
        yield from (apply(f"B0.{number}") for number in range(first, first + depth))
        first += depth
    yield from (balance("a0") for _ in range(commands))


def cancellations(seed, commands):
    """Deposits and withdrawals, and between them the cancellation of any that isn't cancelled yet."""
    pick = picker(seed)
    yield [(name, RICH // 10) for name in FEW]
    blue, red, pool = itertools.count(1), itertools.count(1), []
    for done in range(commands):
        if done > POOL and done % 2 == 0:
            place = pick(len(pool))
            pool[place], pool[-1] = pool[-1], pool[place]
            name = pool.pop()
            next(blue if name[0] == "R" else red)
            yield cancel(name)
        elif pick(2):
            pool.append(f"B0.{next(blue)}")
            yield deposit(FEW[pick(10)], 1 + pick(1000))
        else:
            pool.append(f"R{next(red)}")
            yield withdraw(FEW[pick(10)], 1 + pick(1000))


def transfers(seed, commands):
    """Transfers, and between them the cancellation of any that isn't cancelled yet."""
    pick = picker(seed)
    yield [(name, RICH // 10) for name in FEW]
    pool = []
    for done in range(commands):
        if done > POOL and done % 2 == 0:
            place = pick(len(pool))
            pool[place], pool[-1] = pool[-1], pool[place]
            yield cancel(pool.pop())
        else:
            # All are red, so the n-th command makes Rn.
            pool.append(f"R{done + 1}")
            account = pick(10)
            yield transfer(FEW[account], FEW[(account + 1 + pick(9)) % 10], 1 + pick(1000))


def received(seed, commands):
    """Transfers from a busy account, ten to each of 100 quiet ones and all others to a common one, and then by turns
    statements of quiet accounts and their balances as of any position."""
    pick = picker(seed)
    quiet = [f"q{place}" for place in range(100)]
    yield [("busy", RICH), ("common", 0)] + [(name, 0) for name in quiet]
    made = commands // 2
    every = max(1, made // 1000)
    for done in range(made):
        turn, rest = divmod(done, every)
        yield transfer("busy", quiet[turn % 100] if rest == 0 and turn < 1000 else "common", 1 + pick(1000))
    for done in range(commands - made):
        yield asof(quiet[pick(100)], pick(made + 1)) if done % 2 else statement(quiet[pick(100)])


def cycle(seed, commands):
    """A deposit, its delivery and its application, again and again."""
    pick = picker(seed)
    yield [("a0", 0)]
    for done in range(commands):
        number, step = done // 3 + 1, done % 3
        yield (deposit("a0", 1 + pick(1000)), deliver(number), apply(f"B0.{number}"))[step]


def again(line, before=(), start=0, others=()):
    """The kind that repeats one line, after some others that make what it asks about. Other accounts start with 0."""
    def kind(_seed, commands):
        yield [("a0", start), *((name, 0) for name in others)]
        yield from before[:commands]
        yield from itertools.repeat(line, max(0, commands - len(before)))
    kind.__doc__ = f"`{line}`" + (", after " + ", ".join(f"`{one}`" for one in before) if before else "")
    return kind


KNOWN = (deposit("a0", 500), deliver(1), apply("B0.1"))
SHORTEST = {
    "balance": again(balance("a0")),
    "balance-turned": again('{"site":0,"balance":"a0"}'),
    "balance-spaced": again('{"balance": "a0", "site": 0}'),
    "deliver": again(deliver(1), KNOWN),
    "deposit": again(deposit("a0", 500)),
    "withdraw": again(withdraw("a0", 500), start=RICH),
    "withdraw-turned": again('{"site":0,"withdraw":["a0",500]}', start=RICH),
    "transfer": again(transfer("a0", "a1", 500), start=RICH, others=("a1",)),
    "statement": again(statement("a0")),
    "refused-amount": again(withdraw("a0", 0)),
    "refused-token": again(withdraw("a0", 1, site=1), start=RICH),
    "refused-cancel": again(cancel("B0.1")),
    "refused-apply": again(apply("B0.1")),
    "refused-batch": again(batch(withdraw("a0", 0), deposit("a0", 1))),
    "cycle": cycle,
    "pairs": pairs,
}
LONG = {
    "batches": batches,
    "asof": asofs,
    "statements": statements,
    "rows": rows,
    "inbox": inbox,
    "cancellations": cancellations,
    "transfers": transfers,
    "received": received,
    "deposits": deposits,
}
