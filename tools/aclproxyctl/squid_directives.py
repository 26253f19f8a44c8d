"""What becomes of each directive of Squid 3 to 6: one table, in which each stands in exactly one of four classes.

- kept: the line stays, or what it states does;
- converted: other lines take its place;
- harmless: it changes neither what clients may do nor what others see, and the reason says why;
- stops: it changes that, so the conversion stops. The text says what would change, and how to go on.

A line of a directive that stops may still change nothing, by its words: `squid_forms.py` says where.
"""

import enum
from dataclasses import dataclass


class Class(enum.Enum):
    KEPT = "kept"
    CONVERTED = "converted"
    HARMLESS = "harmless"
    STOPS = "stops"


@dataclass(frozen=True)
class Directive:
    """A row of the table."""

    what: Class
    # Kept: as what. Converted: into what. Harmless: why. Stops: what would change.
    text: str
    # Of one that stops: what to write instead.
    instead: str = ""
    # Of one that stops: the word of `--accept` that goes on without it. Empty where a line has to be written anew.
    accept: str = ""
    # What is to be known where the line goes without a stop.
    warning: str = ""


CACHE = "there is no cache"
LOG = "there is no such log: `aclproxyctl log` makes one of the journal"
PROCESS = "how the process runs is set where it is started"
NAMES = "names are looked up as the machine does"
PAGES = "a denial is one line of text"
OTHERS = "there is no dialogue with other proxies"
MANAGED = "there is no SNMP and no cache manager"
NET = "it tunes connections of Squid's"
HEADERS = "it changes how heads are read, and here a head outside the grammar gets 400"
TLS = "TLS passes in tunnels and is not opened"
FTP = "ftp is not served: an allowed request for it gets 501"
LOGIN = "there is no login; a rule that asks for one is stopped at"
ADAPT = "no ICAP server and no eCAP module is asked"
SPEED = "it belongs to pools that are stopped at"
SIZES = "a head has 65,536 bytes at most, whatever is stated"
REWRITER = "it belongs to a program that is stopped at"
# Time limits, as docs/OPERATING.md has them under "Links that end".
SILENT = "a link on which nothing passed for 2 minutes ends here, and sooner where others wait for a worker"
BLOCKED = "a link whose other side takes nothing for 2 minutes ends here"
DIAL = "a dial has 10 seconds here for an address, and 30 for all of a host"
IDLE = "a connection between two requests ends here after 2 minutes, and sooner where others wait for a worker"
LIFETIME = "a connection lasts as long as bytes pass on it; a silent one ends here after 2 minutes"
HALF = "a client that only ended its own sending is served here to the end of its request"
HELPER_MINUTE = "a program that owes an answer for a minute is stopped here"
ENDING = "open connections have 30 seconds here, or those of `aclproxyctl run --grace`"

HARMLESS: tuple[tuple[str, str], ...] = (
    (CACHE, """cache_vary refresh_stale_hit ie_refresh ignore_ims_on_miss update_headers cache_mem maximum_object_size
        maximum_object_size_in_memory minimum_object_size memory_cache_shared memory_cache_mode memory_replacement_policy
        cache_replacement_policy cache_dir store_dir_select_algorithm max_open_disk_fds cache_swap_low cache_swap_high
        cache_store_log cache_swap_state cache_swap_log diskd_program unlinkd_program cache no_cache send_hit store_miss max_stale
        refresh_pattern quick_abort_min quick_abort_max quick_abort_pct read_ahead_gap negative_ttl range_offset_limit
        minimum_expiry_time store_avg_object_size store_objects_per_bucket broken_vary_encoding vary_ignore_expire
        collapsed_forwarding collapsed_forwarding_access shared_transient_entries_limit offline_mode refresh_all_ims
        reload_into_ims cache_miss_revalidate digest_generation digest_bits_per_entry digest_rebuild_period
        digest_rewrite_period digest_swapout_chunk_size digest_rebuild_chunk_percentage external_refresh_check zero_buffers
        memory_pools memory_pools_limit esi_parser httpd_accel_surrogate_id http_accel_surrogate_remote
        paranoid_hit_validation"""),
    (LOG, """logformat access_log cache_access_log cache_log icap_log log_icap log_access logfile_daemon logfile_rotate
        stats_collection log_mime_hdrs strip_query_terms buffered_logs debug_options emulate_httpd_log forward_log log_fqdn
        log_ip_on_direct referer_log useragent_log client_netmask log_uses_indirect_client log_icp_queries cache_log_message"""),
    (PROCESS, """pid_filename coredump_dir cache_effective_user cache_effective_group chroot workers cpu_affinity_map
        shared_memory_locking hopeless_kid_revival_delay sleep_after_fork umask windows_ipaddrchangemonitor
        high_response_time_warning high_page_fault_warning high_memory_warning eui_lookup pinger_program pinger_enable
        netdb_filename"""),
    ("how many files it may open is set where it is started, by LimitNOFILE= or ulimit -n", "max_filedescriptors max_filedesc"),
    (SILENT, "read_timeout request_timeout request_start_timeout"),
    (BLOCKED, "write_timeout"),
    (DIAL, "connect_timeout forward_timeout"),
    (IDLE, "client_idle_pconn_timeout persistent_request_timeout pconn_timeout pconn_lifetime server_idle_pconn_timeout"),
    (LIFETIME, "client_lifetime"),
    (HALF, "half_closed_clients"),
    (ENDING, "shutdown_lifetime"),
    (NAMES, """dns_v4_first dns_v4_fallback dns_testnames dns_packet_max dns_timeout dns_retransmit_interval
        ignore_unknown_nameservers ipcache_size ipcache_low ipcache_high fqdncache_size positive_dns_ttl negative_dns_ttl
        happy_eyeballs_connect_timeout happy_eyeballs_connect_gap happy_eyeballs_connect_limit balance_on_multiple_ip
        maximum_single_addr_tries"""),
    (PAGES, """error_directory error_default_language error_log_languages err_page_stylesheet err_html_text email_err_data
        error_map cache_mgr mail_from mail_program httpd_suppress_version_string hostname_aliases short_icon_urls
        global_internal_static icon_directory mime_table announce_period announce_host announce_file announce_port"""),
    ("no page names this host, and Via says `aclproxy`", "visible_hostname unique_hostname"),
    (OTHERS, """icp_port htcp_port icp_access htcp_access htcp_clr_access udp_incoming_address udp_outgoing_address
        icp_hit_stale minimum_direct_hops minimum_direct_rtt netdb_low netdb_high netdb_ping_period query_icmp
        test_reachability icp_query_timeout maximum_icp_query_timeout minimum_icp_query_timeout background_ping_rate
        mcast_groups mcast_miss_addr mcast_miss_ttl mcast_miss_port mcast_miss_encode_key mcast_icp_query_timeout
        forward_max_tries hierarchy_stoplist wais_relay_host wais_relay_port peer_connect_timeout dead_peer_timeout"""),
    ("it chooses among other proxies, and cache_peer is stopped at", """cache_peer_access cache_peer_domain neighbor_type_domain
        nonhierarchical_direct prefer_direct always_direct"""),
    (MANAGED, "snmp_port snmp_access snmp_incoming_address snmp_outgoing_address cachemgr_passwd"),
    ("it belongs to wccp_router and wccp2_router, which are stopped at", """wccp_version wccp2_rebuild_wait
        wccp2_forwarding_method wccp2_return_method wccp2_assignment_method wccp2_service wccp2_service_info wccp2_weight
        wccp_address wccp2_address"""),
    (NET, """tcp_recv_bufsize accept_filter pipeline_prefetch client_persistent_connections server_persistent_connections
        persistent_connection_after_error detect_broken_pconn server_pconn_for_nonretriable connect_retries retry_on_error
        incoming_rate incoming_udp_average incoming_tcp_average incoming_dns_average incoming_icp_average incoming_http_average
        min_udp_poll_cnt min_tcp_poll_cnt min_dns_poll_cnt min_icp_poll_cnt min_http_poll_cnt zph_local
        httpd_accel_no_pmtu_disc"""),
    ("it belongs to an http_port of a mode that is stopped at", """spoof_client_ip client_dst_passthru tproxy_uses_indirect_client
        on_unsupported_protocol"""),
    (HEADERS, """relaxed_header_parser request_entities server_http11 upgrade_http0.9 force_request_body_continuation
        ignore_expect_100 broken_posts uri_whitespace check_hostnames allow_underscore extension_methods"""),
    ("it is read by lists of type note and by logs alone", "note"),
    (TLS, """sslproxy_cafile sslproxy_capath sslproxy_cipher sslproxy_client_certificate sslproxy_client_key sslproxy_flags
        sslproxy_options sslproxy_version sslproxy_session_ttl sslproxy_session_cache_size sslproxy_foreign_intermediate_certs
        sslproxy_cert_sign_hash sslproxy_cert_error sslproxy_cert_sign sslproxy_cert_adapt tls_outgoing_options
        ssl_unclean_shutdown ssl_engine sslpassword_program sslcrtd_program sslcrtd_children sslcrtvalidator_program
        sslcrtvalidator_children tls_key_log"""),
    (FTP, """ftp_list_width ftp_user ftp_passive ftp_epsv_all ftp_epsv ftp_eprt ftp_sanitycheck ftp_telnet_protocol
        ftp_client_idle_timeout"""),
    ("no list asks for numbers of networks", "as_whois_server"),
    (LOGIN, """auth_param authenticate_cache_garbage_interval authenticate_ttl authenticate_ip_ttl auth_schemes
        ident_lookup_access ident_timeout"""),
    ("follow_x_forwarded_for is stopped at, so a client is who connects",
        "acl_uses_indirect_client delay_pool_uses_indirect_client adaptation_uses_indirect_client"),
    (ADAPT, """icap_connect_timeout icap_io_timeout icap_service_failure_limit icap_service_revival_delay icap_preview_enable
        icap_preview_size icap_206_enable icap_default_options_ttl icap_persistent_connections icap_client_username_header
        icap_client_username_encode icap_send_client_ip icap_send_client_username icap_service icap_class icap_access icap_retry
        icap_retry_limit ecap_service loadable_modules adaptation_send_client_ip adaptation_send_username adaptation_service_set
        adaptation_service_chain adaptation_access adaptation_service_iteration_limit adaptation_masterx_shared_names
        adaptation_meta"""),
    (SPEED, """client_delay_initial_bucket_level client_delay_parameters client_delay_access response_delay_pool_access"""),
    (SIZES, """request_header_max_size reply_header_max_size client_request_buffer_max_size chunked_request_body_max_size"""),
    (REWRITER, """url_rewrite_bypass url_rewrite_concurrency redirect_children store_id_extras store_id_children store_id_access
        store_id_bypass storeurl_rewrite_children location_rewrite_children location_rewrite_access"""),
)

# What is to be known of some that are harmless.
WARNED: dict[str, str] = {
    "client_netmask": "the journal has the whole addresses of clients",
    "log_mime_hdrs": "the journal has all fields of requests",
    "strip_query_terms": "the journal has targets whole, with what stands behind `?`",
    **dict.fromkeys(("read_timeout", "request_timeout", "request_start_timeout"), SILENT),
    "write_timeout": BLOCKED,
    **dict.fromkeys(("connect_timeout", "forward_timeout"), DIAL),
    **dict.fromkeys(("client_idle_pconn_timeout", "persistent_request_timeout", "pconn_timeout", "pconn_lifetime", "server_idle_pconn_timeout"), IDLE),
    "client_lifetime": LIFETIME,
    "shutdown_lifetime": ENDING,
}

UNFILTERED = "https-unfiltered"
ASKED_OF_CONNECT = (
    "Squid asks this program about each request, about CONNECT too; here a program that rewrites is not asked about CONNECT, so all https "
    "would pass it unfiltered"
)
LET_A_HELPER = (
    "let a helper decide in a rule, which is asked about CONNECT too: an external_acl_type with %URI, or `aclproxy-domains` for the lists of such "
    "a filter"
)

KEPT: dict[str, str] = {
    "http_access": "the rule",
    "delay_pools": "the pools",
    "delay_class": "the pool's class, 1 to 3 or 5",
    "delay_access": "who is in the pool",
    "delay_parameters": "the pool's limits",
    "delay_initial_bucket_level": "how full buckets open",
    "request_header_access": "the rule of a field",
    "reply_header_access": "the rule of a field",
    "url_rewrite_children": "the processes of a program that rewrites",
}

CONVERTED: dict[str, str] = {
    "acl": "lists of this proxy's types, with values out of files and patterns in the syntax of Rust's regex",
    "external_acl_type": "the same without options that change nothing, with tokens of this proxy",
    "http_port": "the port alone; of several the first",
    "forwarded_for": "request_header_access X-Forwarded-For deny all, of off, transparent and delete; truncate stops",
    "via": "request_header_access Via deny all and the same of replies, of off",
    "include": "the lines of these files",
}


def stop(name: str, text: str, instead: str = "", accept: str = "", warning: str = "") -> tuple[str, Directive]:
    """A row that stops; without a word of its own it is accepted by its name, and with `-` not at all."""
    return name, Directive(Class.STOPS, text, instead, "" if accept == "-" else accept or name, warning)


MARKS = "what leaves carries no mark, by which routers and firewalls may tell connections apart"
REPLIES = "replies are not judged here"
STOPS: dict[str, Directive] = dict((
    stop("url_rewrite_program", ASKED_OF_CONNECT, LET_A_HELPER, UNFILTERED),
    stop("redirect_program", ASKED_OF_CONNECT, LET_A_HELPER, UNFILTERED),
    stop("redirector_program", ASKED_OF_CONNECT, LET_A_HELPER, UNFILTERED),
    stop("url_rewrite_access", "it says which requests the program is asked about, and here it is asked about each that the rules allow",
         "have the program pass over the others"),
    stop("url_rewrite_extras", "it says what the program is asked, which has a fixed form here: the target, ADDRESS/-, -, and the method",
         "have the program do with these"),
    stop("url_rewrite_host_header", "the Host that goes out is that of the new target here, and by it that of the old one"),
    stop("url_rewrite_timeout", "it says what comes of a request whose program owes an answer; here the program is stopped after a minute, and the "
         "request goes on as it came"),
    stop("location_rewrite_program", "a program changes where replies send clients, and here none is asked about replies", "take the line out, if the "
         "addresses that origins send are those that clients reach"),
    stop("store_id_program", "a program is asked about requests, and nothing asks it here; by Squid's reference it only names entries of the cache",
         "go on, if it does nothing else: there is no cache"),
    stop("storeurl_rewrite_program", "a program is asked about requests, and nothing asks it here; by Squid's reference it only names entries of the "
         "cache", "go on, if it does nothing else: there is no cache"),
    stop("request_header_add", "the field is not sent to origins any more; if an origin decides by it (as for restricted accounts), that is lost"),
    stop("reply_header_add", "the field is not sent to clients any more"),
    stop("request_header_replace", "the field goes to origins with another value; here it can only be taken out", "say which fields go on by "
         "request_header_access"),
    stop("reply_header_replace", "the field goes to clients with another value; here it can only be taken out", "say which fields go on by "
         "reply_header_access"),
    stop("header_replace", "the field goes to origins with another value; here it can only be taken out", "say which fields go on by "
         "request_header_access"),
    stop("header_access", "the field is taken out; in Squid 6 the name is request_header_access or reply_header_access", "write it with that name", "-"),
    stop("http_upgrade_request_protocols", "requests for other protocols (as WebSocket) may pass by http; here Upgrade is not passed on, and clients need "
         "a tunnel for them"),
    stop("cache_peer", "requests go to their origins directly, and not by that proxy: what it filtered is not filtered", "let the network send what leaves "
         "through that filter; if that proxy only caches, go on"),
    stop("never_direct", "requests may go by another proxy alone, whose filter would be lost", "there is none behind this one: take cache_peer and "
         "never_direct out if requests may go directly"),
    stop("tcp_outgoing_address", "connections leave from the address that the machine chooses; firewalls that go by this one will not know them",
         "set the address by the machine's routes, as `ip route .. src ADDRESS`"),
    stop("tcp_outgoing_tos", MARKS),
    stop("tcp_outgoing_ds", MARKS),
    stop("tcp_outgoing_dscp", MARKS),
    stop("tcp_outgoing_mark", MARKS),
    stop("clientside_tos", MARKS),
    stop("clientside_mark", MARKS),
    stop("mark_client_packet", MARKS),
    stop("mark_client_connection", MARKS),
    stop("qos_flows", MARKS),
    stop("dns_nameservers", "names are looked up by the servers of the machine's /etc/resolv.conf; if these ones withhold names, as those of a filter do, "
         "clients reach what they did not", "name these servers in /etc/resolv.conf"),
    stop("hosts_file", "names are looked up in the machine's /etc/hosts; names of that file have no address, or another one", "put its lines into "
         "/etc/hosts"),
    stop("dns_defnames", "names without a dot are looked up below the domains of resolv.conf, too; here a name is exactly what was written"),
    stop("dns_multicast_local", "names below .local are asked of the machines near by; here names are looked up as the machine does"),
    stop("append_domain", "a domain is put behind names without a dot before they are judged and looked up; here a name is exactly what was written",
         "name such hosts in dstdomain lists without the domain too"),
    stop("deny_info", "who is denied is sent to another address, reset, or told by another status; here a denial is 403 with a line of text", "send clients "
         "on by a program that rewrites, which can do so by http alone: docs/SQUID.md, A page for denials"),
    stop("follow_x_forwarded_for", "clients are told apart by an address in X-Forwarded-For, which is not read here", "say who by the addresses that connect"),
    stop("proxy_protocol_access", "clients are told apart by an address in front of their requests, which is not read here", "say who by the addresses that "
         "connect"),
    stop("http_reply_access", "it denies replies, and replies are not judged here", "deny the requests by http_access"),
    stop("http_access2", "it denies requests after their rewriting", "put its rules to http_access", "-"),
    stop("adapted_http_access", "it denies requests after their rewriting", "put its rules to http_access", "-"),
    stop("miss_access", "it denies what is not in the cache, which here is everything", "put its rules to http_access", "-"),
    stop("reply_body_max_size", "replies above a size are denied, and here their size is not looked at"),
    stop("request_body_max_size", "requests with a body above a size are denied, and here its size is not looked at"),
    stop("client_ip_max_connections", "an address has so many connections at most", "acl many maxconn {1} and http_access deny many, as the first rule"),
    stop("client_delay_pools", "what clients send is limited, and here it is not"),
    stop("response_delay_pool", "replies are limited by it, and here by delay_pools alone", "use delay_pools"),
    stop("https_port", "clients that come by TLS cannot be served", "have clients use an http_port"),
    stop("ftp_port", "clients of FTP cannot be served"),
    stop("ssl_bump", "TLS is opened, and what is in it judged; here it passes in tunnels", "judge CONNECT by host and port"),
    stop("host_verify_strict", "requests whose Host is another than their URL's are denied"),
    stop("client_db", "with it a list of type maxconn never holds in Squid, and here it does", "take the lists of type maxconn out of the rules", "-"),
    stop("icap_enable", "a server may deny or change what passes, and here none is asked", "let a helper decide (external)"),
    stop("ecap_enable", "a module may deny or change what passes, and here none is asked", "let a helper decide (external)"),
    stop("wccp_router", "routers send clients here that do not name this proxy in their settings, and such clients cannot be served"),
    stop("wccp2_router", "routers send clients here that do not name this proxy in their settings, and such clients cannot be served"),
    stop("configuration_includes_quoted_values", "quotes have a meaning by it, and have none here", "write values without quotes", "-"),
    stop("if", "lines that stand under a condition", "write those that are to count, without if, else and endif", "-"),
    stop("else", "lines that stand under a condition", "write those that are to count, without if, else and endif", "-"),
    stop("endif", "lines that stand under a condition", "write those that are to count, without if, else and endif", "-"),
))

ROWS: list[tuple[str, Directive]] = [
    *((name, Directive(Class.KEPT, text)) for name, text in KEPT.items()),
    *((name, Directive(Class.CONVERTED, text)) for name, text in CONVERTED.items()),
    *((name, Directive(Class.HARMLESS, reason, warning=WARNED.get(name, ""))) for reason, names in HARMLESS for name in names.split()),
    *STOPS.items(),
]
TABLE: dict[str, Directive] = dict(ROWS)
NO_EFFECT: dict[str, str] = {name: row.text for name, row in TABLE.items() if row.what is Class.HARMLESS}
ACCEPTED = sorted({row.accept for row in TABLE.values() if row.accept} | {"forwarded_for"})
