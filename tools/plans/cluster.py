"""Makes the rows of a plan on the workers of a scheduler of Dask, which has to run already."""
import itertools
import pickle
import re
from typing import Dict, Iterator, List, Sequence

from kdf9.program import ROOT, BadInput
from plans.crew import Maker, in_batches
from plans.package import imported
from plans.plan import Plan, Run

# How many runs a worker gets at a time, how many such batches wait for each worker, and the seconds for which the scheduler is waited for.
BATCH, WAITING, PATIENCE = 16, 3, 10
ADDRESS = re.compile(r"(?:[a-z]+://)?[^/\s]+:\d{1,5}")

# The makers of this process by the checksum of their plans: on a worker, one is kept from batch to batch.
MAKERS: Dict[str, Maker] = {}


def rows_of_batch(plan: str, source: bytes, measures: List[str], runs: List[Run]) -> List[dict]:
    """The rows of some runs of the plan with this checksum, on a worker. What its jobs are made from comes pickled."""
    if plan not in MAKERS:
        MAKERS.clear()
        MAKERS[plan] = Maker(pickle.loads(source), measures)
    return [MAKERS[plan].row(run) for run in runs]


def rows_of(address: str, plan: Plan, todo: Sequence[int]) -> Iterator[dict]:
    """The rows of the runs of these numbers, as they come from the workers of the scheduler at this address."""
    if not ADDRESS.fullmatch(address):
        raise BadInput(f"{address}: this is no address of a scheduler of Dask; one is such as tcp://127.0.0.1:8786")
    distributed = imported("distributed", "--dask", "python3-distributed")
    try:
        client = distributed.Client(address, timeout=PATIENCE)
    except (OSError, ValueError) as why:
        raise BadInput(f"{address}: no scheduler of Dask answers here: {' '.join(str(why).split())[:100]}") from why
    try:
        if not client.scheduler_info()["workers"]:
            raise BadInput(f"{address}: the scheduler has no workers; start some")
        yield from gathered(distributed, client, plan, todo)
    except ModuleNotFoundError as why:
        raise BadInput(f"{address}: a worker doesn't find the tools of kdf9 ({why}); start the workers with PYTHONPATH={ROOT / 'tools'}") from why
    finally:
        client.close()


def gathered(distributed, client, plan: Plan, todo: Sequence[int]) -> Iterator[dict]:
    """The rows of these runs from the workers of a client. Only some batches wait at a time, so a long study takes no more room than a short one."""
    sent = [plan.checksum, pickle.dumps(plan.source), plan.measures]
    batches = in_batches(todo, BATCH)

    def submit(batch: List[int]):
        return client.submit(rows_of_batch, *sent, [plan.run(number) for number in batch], pure=False)

    most = WAITING * max(1, sum(worker["nthreads"] for worker in client.scheduler_info()["workers"].values()))
    coming = distributed.as_completed(map(submit, itertools.islice(batches, most)), with_results=True)
    for _, rows in coming:
        for batch in itertools.islice(batches, 1):
            coming.add(submit(batch))
        yield from rows
