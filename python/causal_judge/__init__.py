"""Records runs of replicated stores as logs of events, and has them judged by causal consistency."""

from causal_judge.calls import Call, Fails
from causal_judge.clients import AsyncClient, Client
from causal_judge.events import LogError
from causal_judge.fault_lists import Fault, Faults, FaultsUnknown, faults
from causal_judge.merging import MergeCounts, merge
from causal_judge.operations import Operation
from causal_judge.program import ProgramMissing, Refused
from causal_judge.recorder import Recorder
from causal_judge.verdicts import Line, Verdict, assert_met, explain, judge

__version__ = "0.1.0"
__all__ = [
    "AsyncClient",
    "Call",
    "Client",
    "Fails",
    "Fault",
    "Faults",
    "FaultsUnknown",
    "Line",
    "LogError",
    "MergeCounts",
    "Operation",
    "ProgramMissing",
    "Recorder",
    "Refused",
    "Verdict",
    "assert_met",
    "explain",
    "faults",
    "judge",
    "merge",
]
