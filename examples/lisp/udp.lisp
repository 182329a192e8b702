;;;; The link: a UDP socket, and the clock. This is the one file that needs SBCL; another Lisp has
;;;; another of its kind, with the functions MOMENT, OPEN-LINK, CLOSE-LINK, LINK-SEND, LINK-WAIT
;;;; and LINK-RECEIVE. docs/PROTOCOL.md: "Datagrams".

(require :sb-bsd-sockets)

(in-package :chaosnet)

(defstruct link
  socket
  (peers '())                           ; (address octets-of-ip port) of each; T is all others
  (buffer (make-octets +most-datagram+)))

(defun moment ()
  "Milliseconds, from some beginning on."
  (floor (* 1000 (get-internal-real-time)) internal-time-units-per-second))

(defun open-link (place peers)
  "A link that receives at PLACE, a list of the octets of an IP address and of a port. A reply goes
to the place that PEERS has for a Chaosnet address, wherever a datagram came from."
  (let ((socket (make-instance 'sb-bsd-sockets:inet-socket :type :datagram :protocol :udp)))
    (handler-case (sb-bsd-sockets:socket-bind socket (first place) (second place))
      (sb-bsd-sockets:socket-error (condition)
        (fail 'chaosnet-error "can't open the socket: " (princ-to-string condition))))
    (setf (sb-bsd-sockets:non-blocking-mode socket) t)
    (make-link :socket socket :peers peers)))

(defun close-link (link) (sb-bsd-sockets:socket-close (link-socket link)))

(defun link-send (link address octets)
  "Sends OCTETS to the peer with ADDRESS, or where all others are; they may be lost."
  (let ((peer (or (assoc address (link-peers link)) (assoc t (link-peers link)))))
    (when peer
      (handler-case
          (sb-bsd-sockets:socket-send (link-socket link) octets (length octets)
                                      :address (rest peer))
        (sb-bsd-sockets:socket-error () nil)))))

(defun link-wait (link milliseconds)
  "Waits until a datagram is there, but no longer than that."
  (sb-sys:wait-until-fd-usable
   (sb-bsd-sockets:socket-file-descriptor (link-socket link)) :input (/ milliseconds 1000)))

(defun link-receive (link)
  "A buffer and the size of the datagram in it, or nil."
  (multiple-value-bind (buffer size)
      (handler-case
          (sb-bsd-sockets:socket-receive (link-socket link) (link-buffer link) nil)
        (sb-bsd-sockets:socket-error () nil))
    (and buffer (values buffer size))))
