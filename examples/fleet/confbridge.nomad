# A bridge on each of three clients, with its agent beside it, and one etcd elsewhere (var.etcd). `nomad job run -var
# etcd=http://10.0.0.9:2379 confbridge.nomad`. The clients have Docker, and the image of Containerfile. Media need the
# machine's own network, which no driver closes: give these clients to the bridges alone, and close 8095/tcp to all but
# the other clients and signalling, 5004/udp to all but members, and etcd to all but the clients. Let the other clients
# reach 8095/udp and 5004/udp, and ICMP (port unreachable) go back to them: so they see whether a bridge runs whose agent
# doesn't. The desk (7000) is on loopback, where each process of the machine reaches it. The secrets are Nomad's own:
#
#     nomad var put nomad/jobs/confbridge fleet_secret=$(openssl rand -hex 32) etcd_password=..
#
# etcd's user `fleet` has that password (etcd_users.py). Start etcd with these flags, or it keeps each change for ever:
#
#     etcd --auto-compaction-mode=periodic --auto-compaction-retention=5m
variable "etcd" {
  type = string
}

job "confbridge" {
  type = "service"

  group "bridge" {
    count = 3

    constraint {
      distinct_hosts = true
    }

    network {
      mode = "host"
      port "udp" { static = 5004 }
      port "desk" { static = 7000 }
      port "agent" { static = 8095 }
    }

    service {
      name     = "confbridge"
      provider = "nomad"
      port     = "agent"

      check {
        type     = "tcp"
        interval = "10s"
        timeout  = "5s"
      }
    }

    task "bridge" {
      driver = "docker"
      user   = "10001:10001"
      # The script passes it on as `stop`.
      kill_signal  = "SIGTERM"
      kill_timeout = "20s"

      template {
        destination = "local/serve.toml"
        data        = <<-SETTINGS
          udp = "{{ env "NOMAD_IP_udp" }}:5004"
          tcp = "127.0.0.1:7000"
          lanes = 1
          operators = 4
          report_ms = 1000
          cname = "bridge{{ env "NOMAD_ALLOC_INDEX" }}"
        SETTINGS
      }

      config {
        image           = "confbridge-fleet"
        command         = "confbridge"
        args            = ["serve", "/local/serve.toml"]
        network_mode    = "host"
        readonly_rootfs = true
        cap_drop        = ["all"]
        security_opt    = ["no-new-privileges"]
        pids_limit      = 128
      }

      resources {
        cpu        = 1000
        memory     = 400
        memory_max = 2048
      }
    }

    task "agent" {
      driver = "docker"
      user   = "10001:10001"

      template {
        destination = "local/fleet.toml"
        data        = <<-SETTINGS
          [agent]
          listen = "{{ env "NOMAD_IP_agent" }}:8095"
          url = "http://{{ env "NOMAD_IP_agent" }}:8095"
          hosts = []
          secret = "/secrets/fleet.secret"
          rooms_of_source = 8
          lease = 3
          [etcd]
          servers = ["${var.etcd}"]
          patience = 2
          user = "fleet"
          password = "/secrets/etcd.password"
          [bridges.bridge{{ env "NOMAD_ALLOC_INDEX" }}]
          udp = "{{ env "NOMAD_IP_udp" }}:5004"
          tcp = "127.0.0.1:7000"
          rooms = 16
          members = 256
        SETTINGS
      }

      template {
        destination = "secrets/fleet.secret"
        perms       = "0400"
        uid         = 10001
        gid         = 10001
        data        = "{{ with nomadVar \"nomad/jobs/confbridge\" }}{{ .fleet_secret }}{{ end }}"
      }

      template {
        destination = "secrets/etcd.password"
        perms       = "0400"
        uid         = 10001
        gid         = 10001
        data        = "{{ with nomadVar \"nomad/jobs/confbridge\" }}{{ .etcd_password }}{{ end }}"
      }

      config {
        image           = "confbridge-fleet"
        command         = "/usr/local/lib/confbridge/fleet/fleet.py"
        args            = ["/local/fleet.toml"]
        network_mode    = "host"
        readonly_rootfs = true
        cap_drop        = ["all"]
        security_opt    = ["no-new-privileges"]
        pids_limit      = 160
      }

      resources {
        cpu        = 100
        memory     = 128
        memory_max = 512
      }
    }
  }
}
