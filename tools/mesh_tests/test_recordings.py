"""The recordings of a real API server beside this project, where they are there."""

import json
import unittest

from mesh_tests.support import RECORDINGS, Case

LISTS = RECORDINGS / "kubernetes_lists.jsonl"


@unittest.skipUnless(LISTS.is_file(), "the recordings are not there")
class Recordings(Case):
    """What Kubernetes' own controllers made of the same objects, and what the objects say."""

    def test_endpoints(self):
        """Each Service of the recording has the addresses, ports and Pods of its Endpoints object."""
        list_page = json.loads((RECORDINGS / "endpoints.json").read_text())["items"]
        for value in list_page:
            metadata = value["metadata"]
            expected = {
                (address["ip"], port["port"], address["targetRef"]["name"])
                for part in value.get("subsets", [])
                for port in part.get("ports", [])
                for address in part.get("addresses", [])
            }
            run = self.mesh("endpoints", LISTS.read_bytes(), f"{metadata['name']}.{metadata['namespace']}", "-o", "json")
            rows = [row for port in run.json()["ports"] for row in port["endpoints"]]
            self.assertEqual(expected, {(row["address"], row["port"], row["pod"]) for row in rows}, metadata)
            self.assertEqual(0, run.status)

    def test_events_and_lists(self):
        """The events end in the objects of the lists, and so in the same answer."""
        answers = [self.mesh("endpoints", (RECORDINGS / name).read_bytes(), "api.delta").output for name in ("kubernetes.jsonl", LISTS.name)]
        self.assertEqual(*answers)

    def test_a_check(self):
        """Each name that these objects refer to is there, and each Server selects a Pod."""
        run = self.mesh("check", LISTS.read_bytes())
        self.assertEqual((0, "no problem found\n", ""), (run.status, run.output.partition("\n\n")[2], run.error_output))

    def test_a_request(self):
        """`anyone` admits everyone to the Server; `web-get` needs a client of `alpha` or the account `cart`; both match GET alone."""
        words = ["gamma/web-61:8080", "--from", "gamma/cart-193"]
        answer = self.mesh("ask", LISTS.read_bytes(), *words, "-o", "json").json()
        self.assertEqual("allowed ServerAuthorization gamma/anyone", answer["verdict"])
        self.assertEqual([True, True], [it["admits"] for it in answer["reasons"]])
        self.assertEqual("not-found", self.mesh("ask", LISTS.read_bytes(), *words, "--method=POST", "-o", "json").json()["verdict"])
