// Chooses a proxy by a hash of the client's own address, so that one client always goes to one proxy, and to the next one
// where that does not answer. It is for networks in which each client has one address, which its browser knows: where a browser
// gives 127.0.0.1 for its own address, all such clients meet the same proxy.
function FindProxyForURL(url, host) {
    var proxies = ["10.77.1.11:3128", "10.77.1.12:3128", "10.77.1.13:3128", "10.77.1.14:3128"];
    var address = myIpAddress();
    var hash = 0;
    for (var i = 0; i < address.length; i++) {
        hash = (hash * 31 + address.charCodeAt(i)) % 1000003;
    }
    var list = [];
    for (var n = 0; n < proxies.length; n++) {
        list.push("PROXY " + proxies[(hash + n) % proxies.length]);
    }
    return list.join("; ");
}
