"""The operation table at one key, transcribed line by line from crates/jc_model/specs/Table.antt and Processor.antt.

An entry is None (missing) or a string. An operation is a tuple: its name as in scripts, then its values.
A load answer is None (not asked), ('found', v), ('nothing',), ('failed', c).
A write answer is None (not asked), ('done',), ('failed', c). A change is ('write', v) or ('delete',).
A process answer is None, ('ended', effect, outcome) or ('failed', c); an effect is ('keep',), ('set', v), ('remove',).
A reply is ('unit',), ('flag', b), ('value', entry), ('fault', name, c).
"""

WRITES = {'put', 'getput', 'putif', 'remove', 'removeif', 'getremove', 'replace', 'replaceif', 'getreplace'}


def loader_ask(read, op, entry):
    """'never', 'always' or 'ifwanted'"""
    if op[0] == 'get':
        return 'always' if read and entry is None else 'never'
    if op[0] == 'loadall':
        return 'always' if op[1] == 'replace' or entry is None else 'never'
    if op[0] == 'invoke':
        return 'ifwanted' if read and entry is None else 'never'
    return 'never'


def load_fits(ask, given):
    return {'never': not given, 'always': given, 'ifwanted': True}[ask]


def found(load):
    return load[1] if load and load[0] == 'found' else None


def value_after_load(load, entry):
    return load[1] if load and load[0] == 'found' else entry


def effect_ask(effect):
    return {'keep': None, 'set': ('write',) + effect[1:], 'remove': ('delete',)}[effect[0]]


def write_ask(op, entry, process):
    o = op[0]
    if o in ('put', 'getput'):
        return ('write', op[1])
    if o == 'putif':
        return ('write', op[1]) if entry is None else None
    if o in ('remove', 'getremove'):
        return ('delete',)
    if o == 'removeif':
        return ('delete',) if entry is not None and entry == op[1] else None
    if o in ('replace', 'getreplace'):
        return ('write', op[1]) if entry is not None else None
    if o == 'replaceif':
        return ('write', op[2]) if entry is not None and entry == op[1] else None
    if o == 'invoke':
        return effect_ask(process[1]) if process and process[0] == 'ended' else None
    return None


def early_fault(out):
    load, write, process = out
    if load and load[0] == 'failed':
        return ('fault', 'LoaderFailed', load[1])
    if process and process[0] == 'failed':
        return ('fault', 'ProcessorFailed', process[1])
    return None


def first_fault(out):
    early = early_fault(out)
    if early:
        return early
    write = out[1]
    return ('fault', 'WriterFailed', write[1]) if write and write[0] == 'failed' else None


def answers_fit(read, through, op, entry, out):
    load, write, process = out
    asked = through and early_fault(out) is None and write_ask(op, entry, process) is not None
    return (load_fits(loader_ask(read, op, entry), load is not None)
            and (process is not None) == (op[0] == 'invoke') and (write is not None) == asked)


def after_effect(process, entry):
    if process and process[0] == 'ended':
        return {'keep': entry, 'set': process[1][-1], 'remove': None}[process[1][0]]
    return entry


def entry_after(op, entry, out):
    if first_fault(out):
        return entry
    load, write, process = out
    o = op[0]
    if o in ('get', 'loadall'):
        return value_after_load(load, entry)
    if o == 'contains':
        return entry
    if o in ('put', 'getput'):
        return op[1]
    if o == 'putif':
        return op[1] if entry is None else entry
    if o in ('remove', 'getremove', 'clear'):
        return None
    if o == 'removeif':
        return None if entry is not None and entry == op[1] else entry
    if o in ('replace', 'getreplace'):
        return None if entry is None else op[1]
    if o == 'replaceif':
        return op[2] if entry is not None and entry == op[1] else entry
    if o == 'invoke':
        return after_effect(process, value_after_load(load, entry))
    raise ValueError(o)


def reply_after(op, entry, out):
    fault = first_fault(out)
    if fault:
        return fault
    load, write, process = out
    o = op[0]
    if o == 'get':
        return ('value', value_after_load(load, entry))
    if o in ('contains', 'remove', 'replace'):
        return ('flag', entry is not None)
    if o in ('put', 'clear', 'loadall'):
        return ('unit',)
    if o in ('getput', 'getremove', 'getreplace'):
        return ('value', entry)
    if o == 'putif':
        return ('flag', entry is None)
    if o in ('removeif', 'replaceif'):
        return ('flag', entry is not None and entry == op[1])
    if o == 'invoke':
        return ('value', process[2] if process and process[0] == 'ended' else None)
    raise ValueError(o)


def joinable(read, op, entry, load):
    """Others may share the load of this step (jc_model: is_joinable)."""
    return read and op[0] in ('get', 'loadall') and entry is None and load is not None


# The processor's meaning (crates/jc_model/specs/Processor.antt), of calls ('get',), ('exists',), ('set', v), ('remove',).

def mutation(call):
    return {'set': ('to',) + call[1:], 'remove': ('to', None)}.get(call[0])


def last_mutation(calls):
    for call in reversed(calls):
        if mutation(call):
            return mutation(call)
    return None


def uses_load(read, initial, calls):
    before = []
    for call in calls:
        if mutation(call):
            break
        before.append(call)
    return read and initial is None and any(call[0] == 'get' for call in before)


def processor_answers(read, initial, load, calls):
    answers = []
    for i, call in enumerate(calls):
        before = calls[:i]
        upto = calls[:i + 1]
        last = last_mutation(before)
        if call[0] == 'get':
            if uses_load(read, initial, upto) and load and load[0] == 'failed':
                answers.append(('failed', load[1]))
            elif last:
                answers.append(('value', last[1]))
            else:
                answers.append(('value', initial if initial is not None else (found(load) if read else None)))
        elif call[0] == 'exists':
            failed = uses_load(read, initial, before) and load and load[0] == 'failed'
            if last:
                there = last[1] is not None
            else:
                there = initial is not None or (uses_load(read, initial, before) and found(load) is not None)
            answers.append(('present', bool(there and not failed)))
        else:
            answers.append(('done',))
    return answers


def net_effect(read, initial, load, calls):
    if uses_load(read, initial, calls) and load and load[0] == 'failed':
        return ('keep',)
    last = last_mutation(calls)
    if last is None:
        return ('keep',)
    return ('remove',) if last[1] is None else ('set', last[1])
