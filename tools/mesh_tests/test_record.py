"""`mesh record`, with a kubectl that answers from files."""

import json

from mesh_tests.support import Case, list_page, replay


POLICIES = ("MeshTLSAuthentication", "NetworkAuthentication", "ServerAuthorization", "AuthorizationPolicy", "HTTPRoute", "Server")
ORDER = (*POLICIES, "ServiceProfile", "Pod", "EndpointSlice", "Service")


def in_order(*lists: dict) -> list[dict]:
    """Lists in the order in which they are recorded: policies before the Pods that they protect."""
    return sorted(lists, key=lambda it: ORDER.index(it["kind"].removesuffix("List")))


class Record(Case):
    """A recording of the cluster that kubectl reaches."""

    def record(self, answers: dict, *words):
        """Records a cluster whose API server has these answers."""
        self.put_kubectl(answers)
        return self.run_mesh("record", *words)

    def absent(self, *kinds: tuple[str, str, str]) -> tuple[list[dict], str]:
        """The empty lists of kinds that the cluster lacks, and what is said of them."""
        lists = [{"kind": f"{kind}List", "apiVersion": f"{group}/{version}", "metadata": {}, "items": []} for kind, group, version in kinds]
        titles = [(f"{kind}.{group}" if kind == "HTTPRoute" else kind, group) for kind, group, _ in kinds]
        said = [f"mesh: the list of {title} is empty: the cluster does not have it in the group {group}\n" for title, group in titles]
        return lists, "".join(said)

    def policies(self) -> list[tuple[str, str, str]]:
        """The kinds of Linkerd and of the Gateway API, each with its group and the version that docs/FEED.md has."""
        versions = {
            "Server": "v1beta3",
            "ServerAuthorization": "v1beta1",
            "AuthorizationPolicy": "v1alpha1",
            "MeshTLSAuthentication": "v1alpha1",
            "NetworkAuthentication": "v1alpha1",
            "HTTPRoute": "v1beta3",
        }
        kinds = [(kind, "policy.linkerd.io", version) for kind, version in versions.items()]
        return [("ServiceProfile", "linkerd.io", "v1alpha2"), *kinds, ("HTTPRoute", "gateway.networking.k8s.io", "v1")]

    def test_pages_and_kinds_that_the_cluster_lacks(self):
        """The Services come in two pages; there is no Linkerd, whose lists are empty, and EndpointSlice has an older version."""
        groups = {"versions": [{"version": "v1beta1"}], "preferredVersion": {"version": "v1beta1"}}
        run = self.record({
            "/api/v1/services?limit=500": list_page("Service", "a", more="x y"),
            "/api/v1/services?limit=500&continue=x+y": list_page("Service", "b"),
            "/api/v1/pods?limit=500": list_page("Pod"),
            "/apis/discovery.k8s.io": groups,
            "/apis/discovery.k8s.io/v1beta1/endpointslices?limit=500": list_page("EndpointSlice", "c"),
        })
        empty_lists, said = self.absent(*self.policies())
        expected = in_order(list_page("Service", "a", "b"), list_page("Pod"), list_page("EndpointSlice", "c"), *empty_lists)
        self.assertEqual(expected, list(map(json.loads, run.output.splitlines())))
        self.assertEqual((0, said), (run.status, run.error_output))
        empty_lines = "".join(f"{json.dumps(it)}\n" for it in empty_lists)
        self.assertEqual(b"", replay(empty_lines.encode()), "the program accepts each of them")

    def test_single_namespaces(self):
        """Two namespaces make one list of a kind, also where one is named twice. The context goes to kubectl."""
        run = self.record({
            "--context c /api/v1/namespaces/x/services?limit=500": list_page("Service", "a"),
            "--context c /api/v1/namespaces/y/services?limit=500": list_page("Service", "b"),
            "--context c /api/v1/namespaces/x/pods?limit=500": list_page("Pod", "p"),
            "--context c /api/v1/namespaces/y/pods?limit=500": list_page("Pod"),
        }, "-n", "x", "-n", "y", "-n", "x", "--context", "c")
        empty_lists, said = self.absent(("EndpointSlice", "discovery.k8s.io", "v1"), *self.policies())
        expected = in_order(list_page("Service", "a", "b"), list_page("Pod", "p"), *empty_lists)
        self.assertEqual(expected, list(map(json.loads, run.output.splitlines())))
        self.assertEqual((0, said), (run.status, run.error_output))

    def test_the_first_failure_ends_it(self):
        """Nothing is printed, and the kind is named."""
        run = self.record({
            "/api/v1/services?limit=500": list_page("Service", "a"),
            "/api/v1/pods?limit=500": "Error from server (Forbidden): pods is forbidden",
        })
        self.require(run, 6, "", "mesh: listing Pod failed: Error from server (Forbidden): pods is forbidden\n")

    def test_an_answer_of_another_kind(self):
        """What is no list of the kind is not recorded."""
        run = self.record({"/api/v1/services?limit=500": {"kind": "Status"}})
        self.require(run, 6, "", "mesh: listing Service failed: /api/v1/services has a Status, not a ServiceList\n")

    def test_a_core_kind_that_is_not_found(self):
        """Each cluster has Services, so that this is a failure."""
        self.require(self.record({"": ""}), 6, "", "mesh: listing Service failed: the API server does not have the kind\n")

    def test_without_kubectl(self):
        """One sentence."""
        self.put_kubectl({})
        self.require(self.run_mesh("record"), 5, "", "mesh: cannot run kubectl: No such file or directory\n")
