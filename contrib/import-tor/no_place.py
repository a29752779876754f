"""Options of a C tor authority that a station input has no place for."""

# Each with what stands for it.
NO_PLACE = {
    "AuthDirFastGuarantee": "100 kilobytes",
    "AuthDirGuardBWGuarantee": "2,000 kilobytes",
    "AuthDirHasIPv6Connectivity": "`a` lines are always voted",
    "AuthDirMaxServersPerAddr": "2",
    "AuthDirPinKeys": "no key is pinned",
    "AuthDirRejectCCs": "no countries",
    "AuthDirInvalidCCs": "no countries",
    "AuthDirBadExitCCs": "no countries",
    "AuthDirMiddleOnlyCCs": "no countries",
    "AuthDirSharedRandomness": "no value is committed to",
    "AuthDirTestReachability": "nothing is tested",
    "AuthDirVoteGuardBwThresholdFraction": "that of the flag's rule",
    "AuthDirVoteGuardGuaranteeTimeKnown": "691,200 seconds",
    "AuthDirVoteGuardGuaranteeWFU": "none",
    "GuardfractionFile": "none",
    "MinimalAcceptedServerVersion": "none",
    "MinMeasuredBWsForAuthToIgnoreAdvertised": "none",
    "MinUptimeHidServDirectoryV2": "345,600 seconds of the uptime that the descriptor tells",
    "TestingDirAuthVoteExit": "none",
    "TestingDirAuthVoteGuard": "none",
    "TestingDirAuthVoteHSDir": "none",
    "TestingMinExitFlagThreshold": "none",
    "V3AuthNIntervalsValid": "3",
    "V3AuthUseLegacyKey": "none",
}


def tell_what_has_no_place(options, tell):
    """Tells which options have no place."""
    for option, instead in NO_PLACE.items():
        if options.all(option):
            tell(f"{option} {options.one(option)} has no place in a station input; what stands is: {instead}")
    for path in options.all("%include"):
        tell(f"%include {path} is not followed: name the file by --torrc")
