"""What is doubtful in a source that has no fault. Each warning is certain, and none says that there are no others."""
from silc.explaining.program import Source
from silc.explaining.text import Text

from silc.checking.factors import wide_ports
from silc.checking.findings import Finding, finding_of
from silc.checking.numbers import rounded_numbers
from silc.checking.sums import wrapping_sums
from silc.checking.unread import unread


def warnings_of(text: Text) -> list[Finding]:
    """The warnings on a source without a fault, by their places."""
    source = Source(text)
    reports = [*unread(source), *rounded_numbers(source), *wrapping_sums(source), *wide_ports(source)]
    return sorted((finding_of(report, is_warning=True) for report in reports), key=lambda one: (one.line, one.column))
