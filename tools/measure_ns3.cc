// A fat tree in ns-3, which tools/measure measures beside portland: hosts at the same places, the same frames, a capture for each
// host.
//
//     measure_ns3 --model=bridges --k=8 --frames=10000 --captures=DIR
//     measure_ns3 --model=routers --k=8 --frames=10000 --captures=DIR
//
// bridges   Ethernet bridges that learn (BridgeNetDevice), on CSMA links. They have no spanning tree protocol, so only the links
//           are there that `portland bridge` leaves live: of each edge switch to the first aggregation switch of its pod, and of
//           these to the first core switch. First each host sends a frame to everybody, so that every bridge knows it.
// routers   IPv4 routers on point-to-point links, all links of the fat tree. Each has a static route for each place below it and
//           one route up. Frames are datagrams of UDP, as long as an Ethernet frame of 60 bytes would be.
//
// Host after host sends a frame, first to each of its partners once, then those that are counted. They are a microsecond apart,
// so that no link is busy when one comes: nothing waits, nothing is lost.

#include <sys/resource.h>

#include <algorithm>
#include <iostream>
#include <memory>
#include <string>
#include <vector>

#include "ns3/bridge-module.h"
#include "ns3/core-module.h"
#include "ns3/csma-module.h"
#include "ns3/internet-module.h"
#include "ns3/network-module.h"
#include "ns3/point-to-point-module.h"

using namespace ns3;

namespace {

constexpr uint32_t PARTNERS = 8;
constexpr uint16_t COUNTED = 0x88b6;  // the type of the frames that are counted, free for experiments
constexpr uint16_t GREETING = 0x88b7;
constexpr uint16_t UDP_PORT = 9;
constexpr uint32_t ETHERNET_PAYLOAD = 46;
constexpr uint32_t UDP_PAYLOAD = 18;

uint64_t g_arrived = 0;

// The places of a fat tree: hosts, edge, aggregation and core switches, each kind counted from 0.
struct Tree {
    uint32_t k, half, hosts, edges, cores;

    explicit Tree(uint32_t ports)
        : k(ports), half(ports / 2), hosts(ports * ports * ports / 4), edges(ports * ports / 2), cores(ports * ports / 4) {}

    // To whom a host sends its frame of this number.
    uint32_t Partner(uint32_t host, uint32_t number) const {
        const uint32_t stride = std::max(hosts / PARTNERS, 1U);
        return (host + 1 + (number % PARTNERS * stride + host) % (hosts - 1)) % hosts;
    }

    // How many switches a frame crosses.
    uint32_t Crossings(uint32_t from, uint32_t to) const {
        const uint32_t a = from / half;
        const uint32_t b = to / half;
        return a == b ? 1 : a / half == b / half ? 3 : 5;
    }
};

Ptr<Packet> Payload(uint32_t number, uint32_t size) {
    std::vector<uint8_t> bytes(size, 0);
    for (uint32_t at = 0; at < 4; ++at) {
        bytes[at] = static_cast<uint8_t>(number >> (24 - 8 * at));
    }
    return Create<Packet>(bytes.data(), size);
}

std::string CaptureOf(const std::string& folder, uint32_t host) { return folder + "/h" + std::to_string(host) + ".pcap"; }

// A fabric that can be sent on.
class Fabric {
  public:
    virtual ~Fabric() = default;
    virtual void Send(uint32_t host, uint32_t to, uint32_t number) = 0;

    // What each host does once, before it sends.
    virtual void Greet(uint32_t) {}
};

class Bridges : public Fabric {
  public:
    Bridges(const Tree& tree, const std::string& captures) : m_switches(tree.edges + tree.k + 1) {
        m_csma.SetChannelAttribute("DataRate", StringValue("100Gbps"));
        m_csma.SetChannelAttribute("Delay", StringValue("0ns"));
        m_ports.resize(m_switches.GetN());
        for (uint32_t host = 0; host < tree.hosts; ++host) {
            Stand(host / tree.half, CaptureOf(captures, host));
        }
        for (uint32_t edge = 0; edge < tree.edges; ++edge) {
            Join(edge, tree.edges + edge / tree.half);
        }
        for (uint32_t pod = 0; pod < tree.k; ++pod) {
            Join(tree.edges + pod, tree.edges + tree.k);
        }
        for (uint32_t at = 0; at < m_switches.GetN(); ++at) {
            BridgeHelper().Install(m_switches.Get(at), m_ports[at]);
        }
    }

    void Send(uint32_t host, uint32_t to, uint32_t number) override {
        m_hosts.Get(host)->Send(Payload(number, ETHERNET_PAYLOAD), m_hosts.Get(to)->GetAddress(), COUNTED);
    }

    void Greet(uint32_t host) override {
        m_hosts.Get(host)->Send(Payload(0, ETHERNET_PAYLOAD), m_hosts.Get(host)->GetBroadcast(), GREETING);
    }

  private:
    static void Receive(Ptr<NetDevice>, Ptr<const Packet>, uint16_t, const Address&, const Address&, NetDevice::PacketType) {
        ++g_arrived;
    }

    // The next host, at a switch.
    void Stand(uint32_t edge, const std::string& capture) {
        const Ptr<Node> host = CreateObject<Node>();
        const NetDeviceContainer link = m_csma.Install(NodeContainer(host, m_switches.Get(edge)));
        m_hosts.Add(link.Get(0));
        m_ports[edge].Add(link.Get(1));
        host->RegisterProtocolHandler(MakeCallback(&Bridges::Receive), COUNTED, link.Get(0));
        m_csma.EnablePcap(capture, link.Get(0), false, true);
    }

    void Join(uint32_t lower, uint32_t upper) {
        const NetDeviceContainer link = m_csma.Install(NodeContainer(m_switches.Get(lower), m_switches.Get(upper)));
        m_ports[lower].Add(link.Get(0));
        m_ports[upper].Add(link.Get(1));
    }

    CsmaHelper m_csma;
    NodeContainer m_switches;
    std::vector<NetDeviceContainer> m_ports;
    NetDeviceContainer m_hosts;
};

class Routers : public Fabric {
  public:
    Routers(const Tree& tree, const std::string& captures)
        : m_tree(tree), m_hosts(tree.hosts), m_edges(tree.edges), m_aggregations(tree.edges), m_cores(tree.cores) {
        m_links.SetDeviceAttribute("DataRate", StringValue("100Gbps"));
        m_links.SetChannelAttribute("Delay", StringValue("0ns"));
        Config::SetDefault("ns3::Ipv4::WeakEsModel", BooleanValue(false));
        InternetStackHelper stack;
        stack.SetRoutingHelper(Ipv4StaticRoutingHelper());
        stack.SetIpv6StackInstall(false);
        stack.Install(NodeContainer(m_hosts, m_edges, m_aggregations, m_cores));
        for (uint32_t host = 0; host < tree.hosts; ++host) {
            Stand(host, CaptureOf(captures, host));
        }
        for (uint32_t n = 0; n < tree.hosts; ++n) {
            JoinInPod(n);
        }
        for (uint32_t n = 0; n < tree.hosts; ++n) {
            JoinToCore(n);
        }
    }

    void Send(uint32_t host, uint32_t to, uint32_t number) override {
        m_sockets[host]->SendTo(Payload(number, UDP_PAYLOAD), 0, InetSocketAddress(HostAddress(to), UDP_PORT));
    }

  private:
    static Ipv4Address AddressOf(uint32_t a, uint32_t b, uint32_t c) { return Ipv4Address(10U << 24 | a << 16 | b << 8 | c); }

    Ipv4Address HostAddress(uint32_t host) const {
        const uint32_t edge = host / m_tree.half;
        return AddressOf(edge / m_tree.half, edge % m_tree.half, 2 + host % m_tree.half);
    }

    static void Receive(Ptr<Socket> socket) {
        while (socket->Recv()) {
            ++g_arrived;
        }
    }

    static uint32_t Interface(Ptr<NetDevice> device, Ipv4Address address) {
        const Ptr<Ipv4> ipv4 = device->GetNode()->GetObject<Ipv4>();
        const uint32_t interface = ipv4->AddInterface(device);
        ipv4->AddAddress(interface, Ipv4InterfaceAddress(address, Ipv4Mask::GetOnes()));
        ipv4->SetMetric(interface, 1);
        ipv4->SetUp(interface);
        return interface;
    }

    static Ptr<Ipv4StaticRouting> RoutesOf(Ptr<Node> node) {
        return Ipv4StaticRoutingHelper().GetStaticRouting(node->GetObject<Ipv4>());
    }

    // A link, with the route down it, and the lower end's route up where it is to be this one.
    void Join(Ptr<Node> lower, Ipv4Address low, Ptr<Node> upper, Ipv4Address high, Ipv4Mask mask, bool is_way_up) {
        const NetDeviceContainer link = m_links.Install(lower, upper);
        const uint32_t up = Interface(link.Get(0), low);
        const uint32_t down = Interface(link.Get(1), high);
        RoutesOf(upper)->AddNetworkRouteTo(low.CombineMask(mask), mask, down);
        if (is_way_up) {
            RoutesOf(lower)->SetDefaultRoute(high, up);
        }
    }

    void Stand(uint32_t host, const std::string& capture) {
        const Ptr<Node> node = m_hosts.Get(host);
        const uint32_t edge = host / m_tree.half;
        const Ipv4Address gateway = AddressOf(edge / m_tree.half, edge % m_tree.half, 1);
        Join(node, HostAddress(host), m_edges.Get(edge), gateway, Ipv4Mask::GetOnes(), true);
        m_links.EnablePcap(capture, node->GetDevice(node->GetNDevices() - 1), false, true);
        const Ptr<Socket> socket = Socket::CreateSocket(node, UdpSocketFactory::GetTypeId());
        socket->Bind(InetSocketAddress(Ipv4Address::GetAny(), UDP_PORT));
        socket->SetRecvCallback(MakeCallback(&Routers::Receive));
        m_sockets.push_back(socket);
    }

    // The n-th link of edge and aggregation switches. An edge switch's way up is by the one of its own position.
    void JoinInPod(uint32_t n) {
        const uint32_t half = m_tree.half;
        const uint32_t pod = n / (half * half), i = n / half % half, j = n % half;
        Join(m_edges.Get(pod * half + i), AddressOf(pod, i, 1), m_aggregations.Get(pod * half + j), AddressOf(pod, 128 + j, 1),
             Ipv4Mask("255.255.255.0"), i == j);
    }

    // The n-th link of aggregation and core switches. An aggregation switch's way up goes by its pod.
    void JoinToCore(uint32_t n) {
        const uint32_t half = m_tree.half;
        const uint32_t pod = n / (half * half), j = n / half % half, m = n % half;
        Join(m_aggregations.Get(pod * half + j), AddressOf(pod, 128 + j, 1), m_cores.Get(j * half + m), AddressOf(200, j, m),
             Ipv4Mask("255.255.0.0"), pod % half == m);
    }

    const Tree m_tree;
    PointToPointHelper m_links;
    NodeContainer m_hosts, m_edges, m_aggregations, m_cores;
    std::vector<Ptr<Socket>> m_sockets;
};

// Greetings, then the frames: each event sends one and schedules the next.
class Traffic {
  public:
    Traffic(const Tree& tree, Fabric& fabric, uint64_t frames)
        : m_tree(tree), m_fabric(fabric), m_uncounted(uint64_t{tree.hosts} * PARTNERS), m_sends(m_uncounted + frames) {
        Simulator::Schedule(MicroSeconds(1), &Traffic::Greet, this, 0U);
    }

    uint64_t Crossings() const { return m_crossings; }
    uint64_t Uncounted() const { return m_uncounted; }

  private:
    void Greet(uint32_t host) {
        m_fabric.Greet(host);
        if (host + 1 < m_tree.hosts) {
            Simulator::Schedule(MicroSeconds(1), &Traffic::Greet, this, host + 1);
        } else {
            Simulator::Schedule(MicroSeconds(1), &Traffic::Send, this, uint64_t{0});
        }
    }

    void Send(uint64_t n) {
        const auto host = static_cast<uint32_t>(n % m_tree.hosts);
        const auto number = static_cast<uint32_t>(n / m_tree.hosts);
        const uint32_t to = m_tree.Partner(host, number);
        m_fabric.Send(host, to, number);
        m_crossings += n < m_uncounted ? 0 : m_tree.Crossings(host, to);
        if (n + 1 < m_sends) {
            Simulator::Schedule(MicroSeconds(1), &Traffic::Send, this, n + 1);
        }
    }

    const Tree m_tree;
    Fabric& m_fabric;
    const uint64_t m_uncounted, m_sends;
    uint64_t m_crossings = 0;
};

// A capture for each host is a file that stays open.
void RaiseFileLimit() {
    rlimit files{};
    getrlimit(RLIMIT_NOFILE, &files);
    files.rlim_cur = files.rlim_max;
    setrlimit(RLIMIT_NOFILE, &files);
}

}  // namespace

int main(int argc, char* argv[]) {
    std::string model = "bridges";
    std::string captures = ".";
    uint32_t k = 4;
    uint64_t frames = 1000;
    CommandLine words(__FILE__);
    words.AddValue("model", "bridges or routers", model);
    words.AddValue("k", "ports of a switch, even, from 4 to 24", k);
    words.AddValue("frames", "frames that are counted", frames);
    words.AddValue("captures", "the folder of the captures", captures);
    words.Parse(argc, argv);
    RaiseFileLimit();
    const Tree tree(k);
    std::unique_ptr<Fabric> fabric;
    if (model == "routers") {
        fabric = std::make_unique<Routers>(tree, captures);
    } else {
        fabric = std::make_unique<Bridges>(tree, captures);
    }
    const Traffic traffic(tree, *fabric, frames);
    Simulator::Run();
    Simulator::Destroy();
    std::cout << "crossings " << traffic.Crossings() << " arrived " << g_arrived - traffic.Uncounted() << "\n";
    return 0;
}
