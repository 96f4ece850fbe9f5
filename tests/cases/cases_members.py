"""Cases of errors in a result's own members. Each is one result and its first error."""

from cases import *

# What is wrong in a result, by its cause.
RESULTS = {
    "AbsentInput": ['{"baselineState":"absent"}'],
    "BadKind": ['{"kind":"bad"}', '{"kind":""}', '{"kind":1}'],
    "BadLevel": ['{"level":"high"}', '{"level":[]}'],
    "BadGuid": ['{"correlationGuid":"x"}', '{"correlationGuid":""}', '{"correlationGuid":1}'],
    "BadFingerprint": [
        '{"fingerprints":[]}',
        '{"fingerprints":{"a":1}}',
        '{"fingerprints":{"a":"x","b":{}}}',
        '{"partialFingerprints":"x"}',
        '{"partialFingerprints":{"a":null,"b":false}}',
    ],
    "BadSuppression": [
        '{"suppressions":{}}',
        '{"suppressions":[null]}',
        '{"suppressions":[{}]}',
        '{"suppressions":[{"kind":null}]}',
        '{"suppressions":[{"kind":"inside"}]}',
        '{"suppressions":[{"kind":"external","status":"new"}]}',
        '{"suppressions":[{"kind":"external"},{"status":"rejected"}]}',
    ],
    "BadMember": [
        '{"message":"m"}',
        '{"message":{"text":1}}',
        '{"message":{"id":{}}}',
        '{"message":{"arguments":"a"}}',
        '{"message":{"arguments":[1]}}',
        '{"message":{"arguments":["a",null]}}',
        '{"ruleId":1}',
        '{"rule":"R1"}',
        '{"ruleId":"R1","rule":{"id":1}}',
        '{"rule":{"toolComponent":0}}',
        '{"provenance":[]}',
    ],
    "BadIndex": [
        '{"ruleIndex":-2}',
        '{"ruleIndex":4294967296}',
        '{"ruleIndex":9223372036854775808}',
        '{"ruleIndex":18446744073709551615}',
        '{"ruleIndex":"0"}',
        '{"ruleIndex":[]}',
        '{"ruleIndex":true}',
        '{"rule":{"index":0},"ruleIndex":-2}',
        '{"rule":{"index":-2},"ruleIndex":0}',
        '{"rule":{"toolComponent":{"index":"0"}}}',
        '{"provenance":{"invocationIndex":-2}}',
        '{"locations":[{"physicalLocation":{"artifactLocation":{"uri":"b.c","index":-2}}}]}',
    ],
    "BadLocation": [
        '{"locations":{}}',
        '{"locations":[null]}',
        '{"locations":[7,{}]}',
        '{"locations":[{"physicalLocation":[]}]}',
        '{"locations":[{"physicalLocation":{"artifactLocation":"a.c"}}]}',
        '{"locations":[{"physicalLocation":{"artifactLocation":{"uri":1}}}]}',
        '{"locations":[{"physicalLocation":{"artifactLocation":{"uriBaseId":1}}}]}',
    ],
}

# Two errors of a result, and the one that is reported.
BOTH = [
    ('{"baselineState":"absent","kind":"bad"}', "AbsentInput"),
    ('{"kind":"bad","level":"high"}', "BadKind"),
    ('{"kind":"bad","correlationGuid":"x"}', "BadKind"),
    ('{"level":"high","correlationGuid":"x"}', "BadLevel"),
    ('{"correlationGuid":"x","fingerprints":{"a":1}}', "BadGuid"),
    ('{"partialFingerprints":{"a":1},"suppressions":[{}]}', "BadFingerprint"),
    ('{"suppressions":[{}],"message":{"arguments":[1]}}', "BadSuppression"),
    ('{"provenance":[],"ruleIndex":-2}', "BadMember"),
    ('{"provenance":{"invocationIndex":-2},"locations":[null]}', "BadIndex"),
    ('{"locations":[{"physicalLocation":{"artifactLocation":{"uriBaseId":1,"index":-2}}}]}', "BadLocation"),
]


def of_result(result, cause):
    given = f'{{"version":"2.1.0","runs":[{{"tool":{{"driver":{{"name":"lint"}}}},"results":[{result}]}}]}}'
    return Case("members", f"{result}: {cause}", stdin=given.encode(), **refused(f"log 0, run 0, result 0: {cause}"))


def cases():
    for cause, results in RESULTS.items():
        for result in results:
            yield of_result(result, cause)
    for result, cause in BOTH:
        yield of_result(result, cause)
