"""What clients/suites expects to differ from dbus-daemon, by test and part, and why."""

DESCRIPTORS = "our bus passes no file descriptors"
PROCESSES = "our bus tells no process numbers"
SERVICES = "our bus starts no services"
POLICIES = "our bus has no policies"
USERS = "our bus lets in its own user alone"
CONFIGURED = "the part configures a limit of dbus-daemon, whose configuration our bus doesn't read"
EAVESDROPPING = ("a rule of AddMatch meets broadcasts alone on our bus, which shows monitors alone what is addressed to others; "
                 "dbus-broker refuses the key eavesdrop")
NUMBERS = "the part wants the unique name :1.1 of the second connection of a bus, which ours gives the first"

# What may be skipped on one bus and not on the other.
MAY_SKIP = {"gdbus-export": dict.fromkeys(("/gdbus/threaded-unregistration/object", "/gdbus/threaded-unregistration/subtree"),
                                          "the part is skipped if it couldn't reproduce its race, as on a loaded machine")}

LEFT_OUT = {"test-sd-activation": f"{SERVICES}, which each part is about"}

EXPECTED = {
    "test-dbus-daemon": {
        "/creds": PROCESSES,
        "/processid": PROCESSES,
        "/unix-runtime-is-default": "as_dbus_daemon listens in a folder of its own, not where the part looks for the bus",
        "/no-reply/timeout": CONFIGURED,
        "/limits/max-completed-connections": CONFIGURED,
        "/limits/max-connections-per-user": CONFIGURED,
        "/limits/max-replies-per-connection": CONFIGURED,
        "/limits/max-match-rules-per-connection": CONFIGURED,
        "/limits/max-names-per-connection": CONFIGURED,
        "/properties/features": f"{SERVICES}; the part wants the feature SystemdActivation",
        "/properties/get-all": f"{SERVICES}; the part wants the feature SystemdActivation",
        "/policy/count-fds": DESCRIPTORS,
        "/activation/forking": SERVICES,
        "/system-policy/allow-signals": POLICIES,
        "/system-policy/send-destination/prefix": POLICIES,
    },
    "test-dbus-daemon-eavesdrop": {
        "/eavedrop/match_keyword/unicast_to_receiver": EAVESDROPPING,
        "/eavedrop/match_keyword/unicast_to_sender": EAVESDROPPING,
    },
    "test-monitor": {
        "/monitor/forbidden-broadcast": POLICIES,
        "/monitor/forbidden": POLICIES,
        "/monitor/forbidden-method": POLICIES,
        "/monitor/forbidden-reply": POLICIES,
        "/monitor/activation": SERVICES,
    },
    "test-uid-permissions": {
        "/uid-permissions/uae/other": USERS,
        "/uid-permissions/monitor/root": USERS,
        "/uid-permissions/monitor/other": USERS,
    },
    "dbus-appinfo": {"/appinfo/flatpak-doc-export": f"{DESCRIPTORS}, as the portal of documents wants them"},
    "gdbus-connection": {"/gdbus/connection/signals": NUMBERS},
    "gdbus-proxy": {
        "/gdbus/proxy": PROCESSES,
        "/gdbus/proxy/async": PROCESSES,
        "/gdbus/proxy/no-match-rule": PROCESSES,
    },
    "gdbus-names": {"/gdbus/bus-watch-name-auto-start-service-exist": SERVICES},
    "test-client.py": {"TestDBusBindings.test_invalid_fd_index": DESCRIPTORS},
    "test-p2p.py": {"TestDBusBindings.testUnixFd": DESCRIPTORS},
}

# Parts that wait on our bus for what never comes, until they are stopped: they are played on dbus-daemon alone.
WAITS = {
    "test-dbus-daemon": ["/no-reply/timeout", "/limits/max-replies-per-connection", "/activation/forking",
                         "/system-policy/allow-signals"],
    "test-monitor": ["/monitor/forbidden-reply", "/monitor/activation"],
}

# A part that leaves a timer behind, which fails one of those after it on a slow machine, on dbus-daemon too: it has a run of its own.
APART = {"gapplication": ["/gapplication/no-replace"]}
