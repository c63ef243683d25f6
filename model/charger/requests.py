"""Answering a request: whether a list grants what a request asks for.

"A reserved bit of a request is ignored, set or clear, and so is a bit that is not
examined": each field is taken by its bit places, and nothing looks at any other
bit. Which places those are depends on the kind of the object, so bit 20 is ignored
with figures and belongs to a voltage; bits 8 and 7 the other way round.
"""

from charger.object_words import Avs, Battery, Pps, bits
from charger.refusals import public_call, refuse_if
from charger.shapes import shaped


def request_position(request):
    """The row "position"."""
    return bits(request, 31, 28)


def is_mismatch(request):
    """The row "capability mismatch"."""
    return bits(request, 26, 26) == 1


def operating_figure(request):
    return bits(request, 19, 10)


def maximum_figure(request):
    return bits(request, 9, 0)


def requested_voltage(request):
    """Bits 20..9, of AVS in 25 mV, of PPS in 20 mV."""
    return bits(request, 20, 9)


def requested_current(request):
    """Of PPS and AVS, in 50 mA."""
    return bits(request, 6, 0)


def judge_figures(advertised, request):
    """The operating figure is at most what is advertised; the maximum figure is
    at most what is advertised too, or bit 26 is set."""
    refuse_if(operating_figure(request) > advertised, 24)
    refuse_if(maximum_figure(request) > advertised and not is_mismatch(request), 25)


def judge_pps(obj, request):
    """The voltage lies in the range of a PPS object, ends included."""
    millivolts = requested_voltage(request) * 20
    refuse_if(not obj.min * 100 <= millivolts <= obj.max * 100, 22)
    refuse_if(requested_current(request) > obj.current, 24)


def avs_limit(obj, millivolts):
    """What is advertised depends on the voltage: the first current, the second,
    and exactly at 15.0 V the larger."""
    if millivolts < 15_000:
        return obj.low
    if millivolts > 15_000:
        return obj.high
    return max(obj.low, obj.high)


def judge_avs(obj, request):
    """The voltage is a whole number of 100 mV: its lowest two bits belong to it,
    and they count. It lies from 9 V to 15 V where the second current is zero and
    else from 9 V to 20 V."""
    refuse_if(bits(requested_voltage(request), 1, 0) != 0, 23)
    millivolts = requested_voltage(request) * 25
    end = 15_000 if obj.high == 0 else 20_000
    refuse_if(not 9_000 <= millivolts <= end, 22)
    refuse_if(requested_current(request) * 50 > avs_limit(obj, millivolts) * 10, 24)


def granted(objects, request):
    """The object that a request names, if it may have what it asks for.
    Order: 20, 23, 22, 24, 25."""
    position = request_position(request)
    refuse_if(not 1 <= position <= len(objects), 20)
    obj = objects[position - 1]
    if isinstance(obj, Pps):
        judge_pps(obj, request)
    elif isinstance(obj, Avs):
        judge_avs(obj, request)
    elif isinstance(obj, Battery):
        judge_figures(obj.power, request)
    else:
        judge_figures(obj.current, request)
    return obj


@public_call(None)
def answer(words, request):
    """As shape; then 20, 23, 22, 24, 25."""
    granted(shaped(words), request)
