"""The projects that `tools/explore` runs, as Debian has their sources."""
from __future__ import annotations

from dataclasses import dataclass, field


@dataclass(frozen=True)
class Part:
    """Erlang files that are compiled together, below the folder of the sources, or beside this file."""

    folder: str
    files: tuple[str, ...] = ("src/*.erl",)
    first: tuple[str, ...] = ()  # those that others need to be compiled
    options: tuple[str, ...] = ("-I", "include")
    nif: str = ""  # a C file that becomes a library in priv/lib


@dataclass(frozen=True)
class Project:
    """A project, its EUnit tests, and what they need."""

    name: str
    sources: tuple[str, ...]  # Debian's source packages
    parts: tuple[Part, ...]
    tests: tuple[str, ...]
    own: bool = False  # whether the tests are of this repository: Debian's sources have none
    real: dict[str, str] | None = field(default_factory=dict)  # the environment in real time; none where that takes too long
    is_fresh: bool = False  # whether a seed needs a node of its own, since tests leave something behind
    needs: str = ""  # a program that is started beside, and the port at which it is ready
    port: int = 0
    archive: str = ".orig.tar.*"  # how the name of an archive that is fetched ends: of upstream's sources, or of a package
    applications: str = ""  # of a program that is there as beams, the folders of its applications in Debian's package
    turned: tuple[str, ...] = ()  # those of them that are turned
    environment: dict[str, str] = field(default_factory=dict)  # `@` is the folder of a run


EUNIT = ("-DTEST", "-I", "include")
LAGER = ("-DTEST", "+export_all", "+nowarn_export_all", "-I", "include", "-I", "src", "+{lager_extra_sinks,['__lager_test_sink']}")
RABBIT = "rabbitmq-server-*/deps"

PROJECTS = (
    Project(
        "poolboy",
        ("erlang-poolboy",),
        (Part("erlang-poolboy-*", ("src/*.erl", "test/poolboy_tests.erl", "test/poolboy_test_worker.erl"), options=EUNIT),),
        ("poolboy_tests",),
    ),
    Project(
        "goldrush",
        ("erlang-goldrush",),
        (Part("goldrush-*", options=EUNIT),),
        ("glc", "glc_lib", "gre", "gr_context"),
        is_fresh=True,
    ),
    Project(
        "lager",
        ("erlang-lager", "erlang-goldrush"),
        (
            Part("goldrush-*"),
            Part("lager-*", ("src/*.erl", "test/*.erl"), ("src/lager_util.erl", "src/lager_transform.erl"), LAGER),
        ),
        tuple(
            "error_logger_lager_h lager lager_app lager_console_backend lager_crash_log lager_default_formatter lager_file_backend"
            " lager_handler_watcher lager_rotator_default lager_trunc_io lager_util compress_pr_record_test lager_app_tests"
            " lager_crash_backend lager_manager_killer_test lager_metadata_whitelist_test lager_rotate lager_test_backend"
            " lager_test_function_transform lager_trace_test pr_composite_test pr_stacktrace_test zzzz_gh280_crash".split()
        ),
        is_fresh=True,
    ),
    Project(
        "eredis",
        ("erlang-redis-client",),
        (Part("eredis-*", ("src/*.erl", "test/*.erl"), options=(*EUNIT, "-Dnamespaced_types")),),
        ("eredis_tests", "eredis_sub_tests", "eredis_parser_tests"),
        needs="redis-server",
        port=6379,
    ),
    Project(
        "p1_utils",
        ("erlang-p1-utils",),
        (Part("p1_utils-*", ("src/*.erl", "test/*.erl"), ("src/p1_server.erl",), (*EUNIT, "-DHAVE_RAND")),),
        ("p1_queue_test",),
    ),
    Project(
        "p1_shaper",
        ("erlang-p1-utils",),
        (
            Part("p1_utils-*", first=("src/p1_server.erl",), options=("-I", "include", "-DHAVE_RAND")),
            Part("", ("p1_shaper_rate_tests.erl",)),
        ),
        ("p1_shaper_rate_tests",),
        own=True,
        real={"SECONDS": "10"},
    ),
    Project(
        "cache_tab",
        ("erlang-p1-cache-tab", "erlang-p1-utils"),
        (
            Part("p1_utils-*", first=("src/p1_server.erl",), options=("-I", "include", "-DHAVE_RAND")),
            Part("cache_tab-*", ("src/*.erl", "test/*.erl"), options=EUNIT, nif="c_src/ets_cache.c"),
        ),
        ("cache_tab_test",),
        is_fresh=True,
    ),
    Project(
        "ets_cache",
        ("erlang-p1-cache-tab", "erlang-p1-utils"),
        (
            Part("p1_utils-*", first=("src/p1_server.erl",), options=("-I", "include", "-DHAVE_RAND")),
            Part("cache_tab-*", nif="c_src/ets_cache.c"),
            Part("", ("ets_cache_life_tests.erl",)),
        ),
        ("ets_cache_life_tests",),
        own=True,
        real=None,
    ),
    Project(
        "aten",
        ("rabbitmq-server",),
        (Part(f"{RABBIT}/aten", options=EUNIT),),
        ("aten", "aten_detect", "aten_detector"),
    ),
    Project(
        "ra",
        ("rabbitmq-server",),
        (
            Part(f"{RABBIT}/gen_batch_server"),
            Part(f"{RABBIT}/aten"),
            Part(f"{RABBIT}/seshat"),
            Part(f"{RABBIT}/ra", first=("src/ra_machine.erl", "src/ra_snapshot.erl"), options=("-I", "include", "-I", "src")),
            Part("", ("ra_elections_tests.erl",)),
        ),
        ("ra_elections_tests",),
        own=True,
        real={"ROUNDS": "3", "BETWEEN": "1000"},
    ),
    Project(
        "rabbitmq",
        ("rabbitmq-server",),
        (Part("", ("broker_ttl_tests.erl",)),),
        ("broker_ttl_tests",),
        own=True,
        is_fresh=True,
        real={"TTL": "2000"},
        archive="_all.deb",
        applications="usr/lib/rabbitmq/lib/*/plugins/*/ebin",
        turned=tuple(
            "rabbit rabbit_common amqp_client rabbitmq_prelaunch ra aten gen_batch_server osiris sysmon_handler seshat"
            " credentials_obfuscation ranch".split()
        ),
        environment={
            "EXPLORED_PACE": "100",
            "RABBITMQ_NODENAME": "explored@localhost",
            "RABBITMQ_MNESIA_BASE": "@/mnesia",
            "RABBITMQ_MNESIA_DIR": "@/mnesia/explored",
            "RABBITMQ_QUORUM_DIR": "@/quorum",
            "RABBITMQ_STREAM_DIR": "@/stream",
            "RABBITMQ_LOG_BASE": "@/log",
            "RABBITMQ_LOGS": "@/log.txt",
            "RABBITMQ_FEATURE_FLAGS_FILE": "@/feature_flags",
            "RABBITMQ_ENABLED_PLUGINS_FILE": "@/enabled_plugins",
            "RABBITMQ_CONFIG_FILE": "@/rabbitmq",
            "RABBITMQ_GENERATED_CONFIG_DIR": "@/generated",
            "RABBITMQ_PID_FILE": "@/pid",
            "RABBITMQ_NODE_PORT": "35672",
            "RABBITMQ_DIST_PORT": "35673",
        },
    ),
)
